//! Whether pimu's core holds what a state's words hold: the same judgement as comparing the two [`crate::State`]s,
//! made in place. What is free in the words (dead entries, what stands behind 'none') is free here too.
use super::{state, RustCore};
use crate::ffi::{levels_of, ENTRY_WORDS, HINT_WORDS};
use crate::place;
use crate::state::totals;
use pimu::aarch64::access::{cpu, mmu, Tlb};
use pimu::aarch64::Cpu;

/// Permissions, level, global and ASID in the word of an entry.
const BITS: u64 = 0xFFFF_0001_FFFF;

fn registers(c: &Cpu, w: &place::State) -> bool {
    let flags: [u64; 3] = [c.nzcv.into(), c.daif.into(), c.spsel.into()];
    state::registers(c) == w[..place::NZCV]
        && flags == w[place::NZCV..place::GENERAL]
        && c.x == w[place::GENERAL..place::LEVEL]
}

fn counts(c: &Cpu, w: &place::State) -> bool {
    let t = &c.tlb;
    let (kind, value) = state::pending(t);
    let mark = w[place::UNPRIVILEGED] == 1;
    let is = [
        t.flushes,
        t.drops,
        t.epoch,
        kind.into(),
        value,
        cpu::last_pa(c),
        c.abort_pa,
    ];
    let present: [u64; 2] = [mmu::generation(t).into(), mmu::cache_asid(t).into()];
    w[place::LEVEL] == c.el.into()
        && mark == cpu::unprivileged(c)
        && is == w[place::FLUSHES..=place::ABORT_PA]
        && present == w[place::GENERATION..=place::ASID]
}

/// Each level's pair, and the sums: pimu's own two counters.
fn levels(core: &RustCore, w: &place::State) -> bool {
    let (t, theirs) = (&core.cpu.tlb, levels_of(w));
    core.levels == theirs && totals(&theirs) == (t.hits, t.walks)
}

fn fetch_hint(t: &Tlb, w: &place::State) -> bool {
    let f = &w[place::FETCH..=place::FETCH_PA];
    match t.fetch_hint() {
        Some((page, level, pa)) => *f == [1, page, level.into(), pa],
        None => f[0] != 1,
    }
}

fn data_hints(t: &Tlb, w: &place::State) -> bool {
    let mut differ = 0;
    for (i, h) in w[HINT_WORDS].chunks_exact(2).enumerate() {
        let (key, pa) = mmu::data_hint(t, i);
        let set = if key == u64::MAX { 0 } else { u64::MAX };
        differ |= (key ^ h[0]) | ((pa ^ h[1]) & set);
    }
    differ == 0
}

/// An entry counts where it has a tag and is of the present generation or of a later one.
fn entries(t: &Tlb, w: &place::State) -> bool {
    let present = u64::from(mmu::generation(t));
    let counts = |tag: u64, generation: u64| {
        let due = present <= generation && generation <= u64::from(u32::MAX);
        if tag != 0 && due {
            u64::MAX
        } else {
            0
        }
    };
    let mut differ = 0;
    for (slot, e) in w[ENTRY_WORDS].chunks_exact(4).enumerate() {
        let r = mmu::record(t, slot);
        let generation = u64::from(r.generation);
        let bits = u64::from(r.perms)
            | u64::from(r.level) << 8
            | u64::from(r.global) << 16
            | u64::from(r.asid) << 32;
        let (mine, theirs) = (counts(r.tag, generation), counts(e[0], e[1]));
        let other = (r.tag ^ e[0]) | (generation ^ e[1]) | (bits ^ (e[2] & BITS)) | (r.pa ^ e[3]);
        differ |= (mine ^ theirs) | (other & mine);
    }
    differ == 0
}

impl RustCore {
    /// Whether these words hold what it holds.
    pub fn is_held_by(&self, w: &place::State) -> bool {
        let c = &self.cpu;
        let t = &c.tlb;
        let same = registers(c, w) && counts(c, w) && levels(self, w);
        same && fetch_hint(t, w) && data_hints(t, w) && entries(t, w)
    }
}
