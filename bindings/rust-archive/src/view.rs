//! What a core holds, by name.
use crate::core::Core;
use crate::raw;
use crate::words::{broadcast, of_broadcast};
use plain::registers::Key;
use plain::{Broadcast, Counters, Entry, FetchHint, Flags, Hint, LevelCounters, Report, Rights};

impl Core {
    /// A system register by its key ([`crate::registers`]); `None` for a key of no register kept.
    pub fn register(&self, key: impl Into<Key>) -> Option<u64> {
        raw::get_register(&self.held, key.into().into())
    }

    /// The present exception level.
    pub fn level(&self) -> u64 {
        raw::get_level(&self.held)
    }

    /// Whether accesses are marked unprivileged.
    pub fn unprivileged(&self) -> bool {
        raw::get_unprivileged(&self.held) == 1
    }

    /// PSTATE as an SPSR has it: NZCV in bits 31 to 28, DAIF in 9 to 6, the level in 3 and 2, SP in 0.
    pub fn pstate(&self) -> u64 {
        raw::get_pstate(&self.held)
    }

    /// Set NZCV, DAIF and SP by an SPSR's word; the level stays ([`Core::set_level`] sets it).
    pub fn set_pstate(&mut self, spsr: u64) {
        raw::set_pstate(&mut self.held, spsr);
    }

    /// PSTATE's parts.
    pub fn flags(&self) -> Flags {
        let pstate = self.pstate();
        Flags {
            nzcv: (pstate >> 28) as u8 & 15,
            daif: (pstate >> 6) as u8 & 15,
            sp_sel: pstate & 1 != 0,
        }
    }

    /// Set PSTATE's parts: of NZCV and DAIF four bits count.
    pub fn set_flags(&mut self, flags: Flags) {
        let Flags { nzcv, daif, sp_sel } = flags;
        self.set_pstate(u64::from(nzcv & 15) << 28 | u64::from(daif & 15) << 6 | u64::from(sp_sel));
    }

    /// A general register, X0 to X30; all others are zero.
    pub fn general(&self, number: u64) -> u64 {
        raw::get_general(&self.held, number)
    }

    /// The PC.
    pub fn pc(&self) -> u64 {
        raw::get_pc(&self.held)
    }

    /// Set the PC: an exception that is taken saves it.
    pub fn set_pc(&mut self, pc: u64) {
        raw::set_pc(&mut self.held, pc);
    }

    /// The cache's counters.
    pub fn counters(&self) -> Counters {
        Counters {
            levels: [0, 1, 2, 3].map(|level| LevelCounters {
                hits: raw::get_hits(&self.held, level),
                walks: raw::get_walks(&self.held, level),
            }),
            flushes: raw::get_flushes(&self.held),
            drops: raw::get_drops(&self.held),
            epoch: raw::get_epoch(&self.held),
        }
    }

    /// The physical address of the last load that was translated.
    pub fn last_pa(&self) -> u64 {
        raw::get_last_pa(&self.held)
    }

    /// The physical address of the last external abort.
    pub fn abort_pa(&self) -> u64 {
        raw::get_abort_pa(&self.held)
    }

    /// What the other cores are to forget.
    pub fn broadcast(&self) -> Option<Broadcast> {
        broadcast(raw::get_pending(&self.held))
    }

    /// The same; afterwards nothing is pending.
    pub fn take_broadcast(&mut self) -> Option<Broadcast> {
        self.report = Report::default();
        broadcast(raw::take_pending(&mut self.held))
    }

    /// Forget what another core's TLBI asks for. What is pending here stays.
    pub fn receive(&mut self, broadcast: Broadcast) {
        self.report = Report::default();
        let [kind, value] = of_broadcast(broadcast);
        raw::receive(&mut self.held, kind, value);
    }

    /// The cache's generation: a flush moves it, and entries of another are dead.
    pub fn generation(&self) -> u32 {
        raw::get_generation(&self.held) as u32
    }

    /// Set the cache's generation, as if many flushes had gone by: the entries that are live stay live, all others
    /// become blank, and the hints stay.
    pub fn set_generation(&mut self, generation: u32) {
        raw::set_generation(&mut self.held, generation.into());
    }

    /// The ASID in force.
    pub fn asid(&self) -> u16 {
        raw::get_asid(&self.held) as u16
    }

    /// The cache's entry in a slot, live or dead; past the last slot, 1,023, a blank one.
    pub fn entry(&self, slot: usize) -> Entry {
        let [tag, generation, rights, level, global, asid, pa] = raw::get_entry(&self.held, slot as u64);
        Entry {
            tag,
            generation: generation as u32,
            rights: Rights(rights as u8),
            level: level as u8,
            global: global == 1,
            asid: asid as u16,
            pa,
        }
    }

    /// Whether an entry may answer: it was not dropped, and is of the present generation.
    pub fn is_live(&self, entry: &Entry) -> bool {
        entry.tag != 0 && entry.generation == self.generation()
    }

    /// The data hint in a slot, 0 to 511, if there is one.
    pub fn hint(&self, slot: usize) -> Option<Hint> {
        let [key, pa] = raw::get_hint(&self.held, slot as u64);
        (key != u64::MAX).then_some(Hint { key, pa })
    }

    /// The physical page of the data hint in a slot, if it is of this key.
    pub fn hint_page(&self, slot: usize, key: u64) -> Option<u64> {
        let hint = self.hint(slot)?;
        (hint.key == key).then_some(hint.pa)
    }

    /// The fetch hint, if there is one.
    pub fn fetch_hint(&self) -> Option<FetchHint> {
        let [present, page, level, pa] = raw::get_fetch_hint(&self.held);
        let level = level as u8;
        (present == 1).then_some(FetchHint { page, level, pa })
    }
}
