// Written by tools/plain from crates/core_parts/src/read.rt: change that.
//! Readers. None changes the core.

use crate::stage1::cpu::Core;
use crate::stage1::sysreg::encoding;
use crate::stage1::sysreg::regs::{Control, Register, SysRegs};
use crate::stage1::tlb::Inval;
use crate::stage1::tlb::count::Tally;
use crate::stage1::tlb::entry::Entry;
use crate::stage1::tlb::hint::{Hint, NO_HINT};
use crate::stage1::word::bits;

/// What a register holds.
#[inline]
fn reg_at(control: &Control, sys: &SysRegs, register: Register) -> u64 {
    match register {
        Register::Sctlr(r) => control.sctlr[r.index()],
        Register::Tcr(r) => control.tcr[r.index()],
        Register::Ttbr0(r) => control.ttbr0[r.index()],
        Register::Ttbr1 => control.ttbr1_el1,
        Register::Scr => control.scr_el3,
        Register::Hcr => control.hcr_el2,
        Register::Mair(r) => sys.mair[r.index()],
        Register::Vbar(r) => sys.vbar[r.index()],
        Register::Elr(r) => sys.elr[r.index()],
        Register::Spsr(r) => sys.spsr[r.index()],
        Register::Esr(r) => sys.esr[r.index()],
        Register::Far(r) => sys.far[r.index()],
        Register::Vpidr => sys.vpidr_el2,
        Register::Vmpidr => sys.vmpidr_el2,
        Register::Par => sys.par_el1,
    }
}

/// The register that a key names, if it names one.
#[inline]
pub fn register_of(core: &Core, key: u64) -> Option<u64> {
    if key < 0x1_0000_0000 {
        match encoding::named(key as u32) {
            Some(register) => Some(reg_at(&core.control, &core.sys, register)),
            None => None,
        }
    } else {
        None
    }
}

/// The same by a number: 0, and the value in `ans`; 6 where the key names none, and `ans` stays.
#[inline]
pub fn register(core: &Core, key: u64, ans: &mut u64) -> u64 {
    match register_of(core, key) {
        Some(value) => {
            *ans = value;
            0
        }
        None => 6,
    }
}

/// The present level.
#[inline]
pub fn level(core: &Core) -> u64 {
    let privilege = core.privilege;
    privilege.level as u64
}

/// 1 where accesses are marked unprivileged, or 0.
#[inline]
pub fn mark(core: &Core) -> u64 {
    bits::flag_word(core.privilege.unprivileged)
}

/// PSTATE as an SPSR holds it: NZCV, DAIF, the level and SP.
#[inline]
pub fn pstate(core: &Core) -> u64 {
    core.flags.pstate(core.privilege.level)
}

/// A general register, X0 to X30; all others are zero.
#[inline]
pub fn general(core: &Core, number: u64) -> u64 {
    core.reg(number)
}

/// The PC.
#[inline]
pub fn pc(core: &Core) -> u64 {
    core.pc
}

/// The physical address of the last load that was translated.
#[inline]
pub fn last_pa(core: &Core) -> u64 {
    core.last_pa
}

/// The physical address of the last external abort.
#[inline]
pub fn abort_pa(core: &Core) -> u64 {
    core.abort_pa
}

/// What was counted at a level, 0 past the last.
#[inline]
fn tally(core: &Core, level: u64) -> Tally {
    let levels: &[Tally] = &core.tlb.levels;
    let at = level as usize;
    if at < levels.len() {
        levels[at]
    } else {
        Tally { hits: 0, walks: 0 }
    }
}

/// Translations made at a level that an entry of the cache answered; 0 for a level above 3.
#[inline]
pub fn hits(core: &Core, level: u64) -> u64 {
    tally(core, level).hits
}

/// Walks made at a level, however they ended; 0 for a level above 3.
#[inline]
pub fn walks(core: &Core, level: u64) -> u64 {
    tally(core, level).walks
}

/// Flushes of the whole cache.
#[inline]
pub fn flushes(core: &Core) -> u64 {
    core.tlb.flushes
}

/// Invalidations of a page.
#[inline]
pub fn drops(core: &Core) -> u64 {
    core.tlb.drops
}

/// Moves whenever a translation that was looked up may no longer hold.
#[inline]
pub fn epoch(core: &Core) -> u64 {
    core.tlb.epoch
}

/// The cache's generation: a flush moves it, and entries of another are dead.
#[inline]
pub fn generation(core: &Core) -> u64 {
    core.tlb.generation as u64
}

/// The ASID in force.
#[inline]
pub fn asid(core: &Core) -> u64 {
    core.tlb.asid as u64
}

/// What is pending, in two words.
#[inline]
fn pending_words(pending: Option<Inval>) -> [u64; 2] {
    match pending {
        None => [0, 0],
        Some(Inval::All) => [1, 0],
        Some(Inval::Page(page)) => [2, page],
        Some(Inval::Asid(asid)) => [3, asid as u64],
    }
}

/// What the other cores are to drop, in two words: 0 nothing, 1 all, 2 a page, 3 an ASID; and the page or the ASID.
#[inline]
pub fn pending(core: &Core, out: &mut [u64; 2]) {
    *out = pending_words(core.tlb.broadcast);
}

#[inline]
fn entry_words(entry: Entry) -> [u64; 7] {
    [
        entry.tag,
        entry.generation as u64,
        entry.perms as u64,
        entry.level as u64,
        bits::flag_word(entry.global),
        entry.asid as u64,
        entry.pa,
    ]
}

/// The entry in a slot, blank past the last.
#[inline]
fn entry_in(core: &Core, slot: u64) -> Entry {
    let entries: &[Entry] = &core.tlb.entries;
    let at = slot as usize;
    if at < entries.len() {
        entries[at]
    } else {
        Entry::default()
    }
}

/// The entry in a slot, in seven words: tag, generation, permissions, level, 1 where it is for every ASID, ASID,
/// physical page. Past the last a blank one.
#[inline]
pub fn entry(core: &Core, slot: u64, out: &mut [u64; 7]) {
    *out = entry_words(entry_in(core, slot));
}

/// The data hint in a slot, none past the last.
#[inline]
fn hint_in(core: &Core, slot: u64) -> Hint {
    let hints: &[Hint] = &core.tlb.hints;
    let at = slot as usize;
    if at < hints.len() { hints[at] } else { NO_HINT }
}

/// The data hint in a slot, in two words: key and physical page. Past the last none.
#[inline]
pub fn hint(core: &Core, slot: u64, out: &mut [u64; 2]) {
    let hint = hint_in(core, slot);
    *out = [hint.key, hint.pa];
}

/// The fetch hint, in four words: 1 where there is one, page, level, physical page; zeros where there is none.
#[inline]
pub fn fetch_hint(core: &Core, out: &mut [u64; 4]) {
    *out = match core.tlb.fetch {
        None => [0, 0, 0, 0],
        Some(hint) => [1, hint.page, hint.level as u64, hint.pa],
    };
}
