// Written by tools/plain from crates/saved/src/restore.rt: change that.
//! The core that words hold: each part read where it stands.

use crate::stage1::cpu::Core;
use crate::stage1::saved::place::Saved;
use crate::stage1::saved::{parts, place};
use crate::stage1::tlb::entry::Entry;
use crate::stage1::tlb::hint::Hint;

#[inline]
fn read_general(x: &mut [u64; 31], words: &Saved) {
    let mut i: usize = 0;
    while i < 31 {
        x[i] = words[place::GENERAL + i];
        i += 1;
    }
}

#[inline]
fn read_hints(hints: &mut [Hint; 512], words: &Saved) {
    let mut i: usize = 0;
    while i < 512 {
        hints[i] = parts::hint_at(words, i);
        i += 1;
    }
}

#[inline]
fn read_entries(entries: &mut [Entry; 1024], words: &Saved) {
    let mut i: usize = 0;
    while i < 1024 {
        entries[i] = parts::entry_at(words, i);
        i += 1;
    }
}

/// The core becomes the one that the words hold, whatever they are: of a word that is too large for its part only
/// some bits count.
#[inline]
pub fn restore(core: &mut Core, words: &Saved) {
    core.privilege = parts::privilege_at(words);
    core.flags = parts::flags_at(words);
    core.pc = words[place::PC];
    read_general(&mut core.x, words);
    core.control = parts::control_at(words);
    core.sys = parts::sys_at(words);
    core.tlb.generation = (words[place::GENERATION] % 0x1_0000_0000) as u32;
    core.tlb.asid = (words[place::ASID] % 0x1_0000) as u16;
    core.tlb.fetch = parts::fetch_at(words);
    read_hints(&mut core.tlb.hints, words);
    read_entries(&mut core.tlb.entries, words);
    core.tlb.levels = parts::tallies_at(words);
    core.tlb.flushes = words[place::FLUSHES];
    core.tlb.drops = words[place::DROPS];
    core.tlb.epoch = words[place::EPOCH];
    core.tlb.broadcast = parts::pending_at(words);
    core.last_pa = words[place::LAST_PA];
    core.abort_pa = words[place::ABORT_PA];
}
