// Written by tools/plain from crates/core_parts/src/put.rt: change that.
//! What an emulator sets beside the calls: each changes its part and nothing else.

use crate::stage1::core_parts::read;
use crate::stage1::cpu::Core;
use crate::stage1::exception::flags::Flags;
use crate::stage1::tlb::Inval;
use crate::stage1::tlb::entry::Entry;

/// The PC: an exception that is taken saves it.
#[inline]
pub fn pc(core: &mut Core, pc: u64) {
    core.pc = pc;
}

/// NZCV, DAIF and SP of an SPSR's word.
#[inline]
fn flags_in(psr: u64) -> Flags {
    Flags {
        nzcv: (psr & 0xF000_0000) as u32,
        daif: (psr & 0x3C0) as u32,
        spsel: psr % 2 == 1,
    }
}

/// PSTATE by an SPSR's word: NZCV, DAIF and SP are set by it, the level is not.
#[inline]
pub fn pstate(core: &mut Core, psr: u64) {
    core.flags = flags_in(psr);
}

/// What the other cores are to drop, as [`read::pending`] gives it; afterwards nothing is pending.
#[inline]
pub fn take_pending(core: &mut Core, out: &mut [u64; 2]) {
    read::pending(core, out);
    core.tlb.broadcast = None;
}

#[inline]
fn inval_named(kind: u64, value: u64) -> Option<Inval> {
    match kind {
        1 => Some(Inval::All),
        2 => Some(Inval::Page(value)),
        3 => {
            if value < 0x1_0000 {
                Some(Inval::Asid(value as u16))
            } else {
                None
            }
        }
        _ => None,
    }
}

/// Another core's broadcast, in its two words: this core drops the same. 0; or 64 where they name nothing, and
/// nothing changes.
#[inline]
pub fn receive(core: &mut Core, kind: u64, value: u64) -> u64 {
    match inval_named(kind, value) {
        Some(what) => {
            core.tlb.invalidate(what);
            0
        }
        None => 64,
    }
}

/// An entry when the cache takes another generation: one that is live stays live, any other goes.
#[inline]
fn moved(entry: Entry, from: u32, to: u32) -> Entry {
    if entry.generation == from {
        Entry {
            generation: to,
            ..entry
        }
    } else {
        Entry::default()
    }
}

#[inline]
fn move_entries(entries: &mut [Entry; 1024], from: u32, to: u32) {
    for e in entries.iter_mut() {
        *e = moved(*e, from, to);
    }
}

/// The cache's generation: the entries that are live stay live, the others go, and the hints stay. 0; or 64 where
/// no 32 bits hold it, and nothing changes.
#[inline]
pub fn generation(core: &mut Core, generation: u64) -> u64 {
    if generation < 0x1_0000_0000 {
        let from = core.tlb.generation;
        let to = generation as u32;
        move_entries(&mut core.tlb.entries, from, to);
        core.tlb.generation = to;
        0
    } else {
        64
    }
}
