//! What a core holds, by name.
use crate::census::Rights;
use crate::core::Core;
use crate::registers::Key;
use crate::stage1::core_parts::{put, read};
use crate::stage1::tlb::Inval;
use crate::stage1::{exception, tlb};

/// What the cache counted at one exception level.
#[derive(Clone, Copy, Debug, Default, PartialEq, Eq)]
pub struct LevelCounters {
    /// Translations that an entry of the cache answered, with a permission fault too.
    pub hits: u64,
    /// Walks, however they ended.
    pub walks: u64,
}

/// The cache's counters. Each wraps at 2^64.
#[derive(Clone, Copy, Debug, PartialEq, Eq)]
pub struct Counters {
    /// By the exception level of the access, which the mark [`Core::set_unprivileged`] does not lower.
    pub levels: [LevelCounters; 4],
    /// Flushes of the whole cache.
    pub flushes: u64,
    /// Invalidations of a page.
    pub drops: u64,
    /// Moves whenever a translation that was looked up may no longer hold.
    pub epoch: u64,
}

impl Counters {
    /// The hits of all levels: their sum, wrapped at 2^64.
    #[inline]
    pub fn hits(&self) -> u64 {
        self.sum(|level| level.hits)
    }

    /// The walks of all levels: their sum, wrapped at 2^64.
    #[inline]
    pub fn walks(&self) -> u64 {
        self.sum(|level| level.walks)
    }

    #[inline(always)]
    fn sum(&self, of: impl Fn(&LevelCounters) -> u64) -> u64 {
        self.levels.iter().map(of).fold(0, u64::wrapping_add)
    }
}

/// What a TLBI of the Inner Shareable forms asks of the other cores.
#[derive(Clone, Copy, Debug, PartialEq, Eq)]
pub enum Broadcast {
    /// Forget everything.
    All,
    /// Forget this page: the TLBI's register as it was, the page's number in bits 43 to 0.
    Page(u64),
    /// Forget what is not global and of this ASID.
    Asid(u16),
}

impl From<Inval> for Broadcast {
    fn from(what: Inval) -> Broadcast {
        match what {
            Inval::All => Broadcast::All,
            Inval::Page(value) => Broadcast::Page(value),
            Inval::Asid(asid) => Broadcast::Asid(asid),
        }
    }
}

impl From<Broadcast> for Inval {
    fn from(what: Broadcast) -> Inval {
        match what {
            Broadcast::All => Inval::All,
            Broadcast::Page(value) => Inval::Page(value),
            Broadcast::Asid(asid) => Inval::Asid(asid),
        }
    }
}

/// PSTATE but for the exception level.
#[derive(Clone, Copy, Debug, PartialEq, Eq)]
pub struct Flags {
    /// N, Z, C and V in bits 3 to 0.
    pub nzcv: u8,
    /// D, A, I and F in bits 3 to 0.
    pub daif: u8,
    /// SP: SP_ELx is used, and not SP_EL0.
    pub sp_sel: bool,
}

/// An entry of the cache. It stands in slot page number % 1,024.
#[derive(Clone, Copy, Debug, PartialEq, Eq)]
pub struct Entry {
    /// The untagged page number * 4 + regime; 0 where it was dropped.
    pub tag: u64,
    /// That of the cache when it was made: an entry of another generation is dead.
    pub generation: u32,
    /// What EL0 and the regime's own level may do.
    pub rights: Rights,
    /// The level of the tables.
    pub level: u8,
    /// Whether it is for every ASID.
    pub global: bool,
    /// The ASID.
    pub asid: u16,
    /// The physical page's address.
    pub pa: u64,
}

impl From<tlb::entry::Entry> for Entry {
    fn from(entry: tlb::entry::Entry) -> Entry {
        let tlb::entry::Entry {
            tag,
            generation,
            perms,
            level,
            global,
            asid,
            pa,
        } = entry;
        let rights = Rights(perms);
        Entry {
            tag,
            generation,
            rights,
            level,
            global,
            asid,
            pa,
        }
    }
}

/// A data hint. That of page number p for reads stands in slot (p ^ p >> 5 ^ p >> 10) % 256, for writes 256 further.
#[derive(Clone, Copy, Debug, PartialEq, Eq)]
pub struct Hint {
    /// The page's address plus the exception level.
    pub key: u64,
    /// The physical page's address.
    pub pa: u64,
}

/// The fetch hint.
#[derive(Clone, Copy, Debug, PartialEq, Eq)]
pub struct FetchHint {
    /// The page's address.
    pub page: u64,
    /// The exception level.
    pub level: u8,
    /// The physical page's address.
    pub pa: u64,
}

impl Core {
    /// A system register by its key ([`crate::registers`]); `None` for a key of no register kept.
    pub fn register(&self, key: impl Into<Key>) -> Option<u64> {
        read::register_of(&self.core, key.into().into())
    }

    /// The present exception level.
    #[inline]
    pub fn level(&self) -> u64 {
        self.core.privilege.level.into()
    }

    /// Whether accesses are marked unprivileged.
    #[inline]
    pub fn unprivileged(&self) -> bool {
        self.core.privilege.unprivileged
    }

    /// PSTATE as an SPSR has it: NZCV in bits 31 to 28, DAIF in 9 to 6, the level in 3 and 2, SP in 0.
    #[inline]
    pub fn pstate(&self) -> u64 {
        read::pstate(&self.core)
    }

    /// Set NZCV, DAIF and SP by an SPSR's word; the level stays ([`Self::set_level`] sets it).
    #[inline]
    pub fn set_pstate(&mut self, spsr: u64) {
        put::pstate(&mut self.core, spsr);
    }

    /// PSTATE's parts.
    #[inline]
    pub fn flags(&self) -> Flags {
        let exception::flags::Flags { nzcv, daif, spsel } = self.core.flags;
        Flags {
            nzcv: (nzcv >> 28) as u8,
            daif: (daif >> 6) as u8 & 15,
            sp_sel: spsel,
        }
    }

    /// Set PSTATE's parts: of NZCV and DAIF four bits count.
    #[inline]
    pub fn set_flags(&mut self, flags: Flags) {
        let Flags { nzcv, daif, sp_sel } = flags;
        self.set_pstate(u64::from(nzcv & 15) << 28 | u64::from(daif & 15) << 6 | u64::from(sp_sel));
    }

    /// A general register, X0 to X30; all others are zero.
    #[inline]
    pub fn general(&self, number: u64) -> u64 {
        self.core.reg(number)
    }

    /// The PC.
    #[inline]
    pub fn pc(&self) -> u64 {
        self.core.pc
    }

    /// Set the PC: an exception that is taken saves it.
    #[inline]
    pub fn set_pc(&mut self, pc: u64) {
        put::pc(&mut self.core, pc);
    }

    /// The cache's counters.
    #[inline]
    pub fn counters(&self) -> Counters {
        let tlb = &self.core.tlb;
        let levels = tlb.levels.map(|tally| LevelCounters {
            hits: tally.hits,
            walks: tally.walks,
        });
        Counters {
            levels,
            flushes: tlb.flushes,
            drops: tlb.drops,
            epoch: tlb.epoch,
        }
    }

    /// The physical address of the last load that was translated.
    #[inline]
    pub fn last_pa(&self) -> u64 {
        self.core.last_pa
    }

    /// The physical address of the last external abort of an access. It stays, also where a device answered
    /// ([`crate::Memory`]).
    #[inline]
    pub fn abort_pa(&self) -> u64 {
        self.core.abort_pa
    }

    /// What the other cores are to forget.
    #[inline]
    pub fn broadcast(&self) -> Option<Broadcast> {
        self.core.tlb.broadcast.map(Broadcast::from)
    }

    /// The same; afterwards nothing is pending.
    #[inline]
    pub fn take_broadcast(&mut self) -> Option<Broadcast> {
        self.answer.reads = 0;
        self.core.tlb.broadcast.take().map(Broadcast::from)
    }

    /// Forget what another core's TLBI asks for. What is pending here stays.
    #[inline]
    pub fn receive(&mut self, broadcast: Broadcast) {
        self.answer.reads = 0;
        self.core.tlb.invalidate(broadcast.into());
    }

    /// The cache's generation: a flush moves it, and entries of another are dead.
    #[inline]
    pub fn generation(&self) -> u32 {
        self.core.tlb.generation
    }

    /// Set the cache's generation, as if many flushes had gone by: the entries that are live stay live, all others
    /// become blank, and the hints stay.
    pub fn set_generation(&mut self, generation: u32) {
        put::generation(&mut self.core, generation.into());
    }

    /// The ASID in force.
    #[inline]
    pub fn asid(&self) -> u16 {
        self.core.tlb.asid
    }

    /// The cache's entry in a slot, live or dead; past the last slot, 1,023, a blank one.
    pub fn entry(&self, slot: usize) -> Entry {
        self.core
            .tlb
            .entries
            .get(slot)
            .copied()
            .unwrap_or_default()
            .into()
    }

    /// Whether an entry may answer: it was not dropped, and is of the present generation.
    pub fn is_live(&self, entry: &Entry) -> bool {
        entry.tag != 0 && entry.generation == self.generation()
    }

    /// The data hint in a slot, 0 to 511, if there is one.
    #[inline]
    pub fn hint(&self, slot: usize) -> Option<Hint> {
        let tlb::hint::Hint { key, pa } = *self.core.tlb.hints.get(slot)?;
        (key != u64::MAX).then_some(Hint { key, pa })
    }

    /// The physical page of the data hint in a slot, if it is of this key: one comparison, where the key is known to be a
    /// hint's.
    #[inline]
    pub fn hint_page(&self, slot: usize, key: u64) -> Option<u64> {
        let hint = self.core.tlb.hints.get(slot)?;
        (hint.key == key && key != u64::MAX).then_some(hint.pa)
    }

    /// The fetch hint, if there is one.
    #[inline]
    pub fn fetch_hint(&self) -> Option<FetchHint> {
        let tlb::hint::FetchHint { page, level, pa } = self.core.tlb.fetch?;
        Some(FetchHint { page, level, pa })
    }
}
