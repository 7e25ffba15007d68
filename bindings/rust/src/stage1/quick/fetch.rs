// Written by tools/plain from crates/quick/src/fetch.rt: change that.
//! A fetch on a core that is lent, and where one goes: the number, and in ans the instruction or the address, and what
//! was read. Both are one text: INSN says whether the instruction is read.

use crate::stage1::call_words::reply::Report;
use crate::stage1::cpu::{Core, bytes, check};
use crate::stage1::fault::Fault;
use crate::stage1::quick::{hint, translation};
use crate::stage1::tlb::access::Kind;
use crate::stage1::tlb::hint::FetchHint;
use crate::stage1::tlb::work::Work;

/// The end of a fetch, after its translation.
#[inline(always)]
fn read(
    core: &mut Core,
    va: u64,
    answer: Result<u64, Fault>,
    work: Work,
    ans: &mut Report,
    base: u64,
    ram: &[u8],
) -> u64 {
    ans.reads = work.reads;
    match answer {
        Ok(pa) => match bytes::insn_at(base, ram, pa) {
            Some(v) => {
                ans.value = v as u64;
                0
            }
            None => {
                core.abort_pa = pa;
                272
            }
        },
        Err(fault) => 256 + fault.fsc as u64,
    }
}

#[inline(always)]
pub(crate) fn ended<const INSN: bool>(
    core: &mut Core,
    va: u64,
    answer: Result<u64, Fault>,
    work: Work,
    ans: &mut Report,
    base: u64,
    ram: &[u8],
) -> u64 {
    if INSN {
        read(core, va, answer, work, ans, base, ram)
    } else {
        translation::reached(answer, work, ans)
    }
}

/// An allowed address becomes the fetch hint.
#[inline(always)]
fn leave(core: &mut Core, va: u64, answer: Result<u64, Fault>) {
    if let Ok(pa) = answer {
        core.tlb.fetch = Some(FetchHint::new(va, core.privilege.level, pa));
    }
}

/// By a walk.
#[inline(never)]
fn by_walk<const INSN: bool>(core: &mut Core, va: u64, ans: &mut Report, base: u64, ram: &[u8]) -> u64 {
    let mut work = Work::none();
    let answer = core.by_walk(base, ram, va, Kind::Fetch, &mut work);
    leave(core, va, answer);
    ended::<INSN>(core, va, answer, work, ans, base, ram)
}

/// What is at hand, or a walk.
#[inline(always)]
fn by_entry<const INSN: bool>(core: &mut Core, va: u64, ans: &mut Report, base: u64, ram: &[u8]) -> u64 {
    match core.at_hand(base, ram, va, Kind::Fetch) {
        Some(answer) => {
            leave(core, va, answer);
            ended::<INSN>(core, va, answer, Work::none(), ans, base, ram)
        }
        None => by_walk::<INSN>(core, va, ans, base, ram),
    }
}

#[inline(always)]
pub(crate) fn past_hint<const INSN: bool>(
    core: &mut Core,
    va: u64,
    ans: &mut Report,
    base: u64,
    ram: &[u8],
) -> u64 {
    by_entry::<INSN>(core, va, ans, base, ram)
}

#[inline(always)]
fn by_hint<const INSN: bool>(core: &mut Core, va: u64, ans: &mut Report, base: u64, ram: &[u8]) -> u64 {
    match core.tlb.by_fetch_hint(core.privilege.level, va) {
        Some(pa) => ended::<INSN>(core, va, Ok(pa), Work::none(), ans, base, ram),
        None => past_hint::<INSN>(core, va, ans, base, ram),
    }
}

/// A level above 3, or a window that ends at 2^64 or past it: the checks by name.
#[cold]
#[inline(never)]
pub(crate) fn checked<const INSN: bool>(
    core: &mut Core,
    va: u64,
    ans: &mut Report,
    base: u64,
    ram: &[u8],
) -> u64 {
    match check::with_ram(core.privilege.level, base, ram.len() as u64) {
        Ok(()) => by_hint::<INSN>(core, va, ans, base, ram),
        Err(missed) => missed.number() as u64,
    }
}

#[inline(always)]
fn asked(core: &mut Core, va: u64, ans: &mut Report, base: u64, ram: &[u8]) -> u64 {
    if 3 < core.privilege.level {
        checked::<true>(core, va, ans, base, ram)
    } else if u64::MAX - (ram.len() as u64) < base {
        checked::<true>(core, va, ans, base, ram)
    } else {
        by_hint::<true>(core, va, ans, base, ram)
    }
}

/// The instruction at va.
#[inline]
pub fn fetch(core: &mut Core, va: u64, ans: &mut Report, base: u64, ram: &[u8]) -> u64 {
    asked(core, va, ans, base, ram)
}

/// Where a fetch goes that is not served at once: the level, the window, and past the hint. Its arguments are those of
/// the call in their order, so that it is jumped to.
#[inline(never)]
fn rest(core: &mut Core, va: u64, ans: &mut Report, base: u64, ram: &[u8]) -> u64 {
    if 3 < core.privilege.level {
        checked::<false>(core, va, ans, base, ram)
    } else if u64::MAX - (ram.len() as u64) < base {
        checked::<false>(core, va, ans, base, ram)
    } else {
        by_entry::<false>(core, va, ans, base, ram)
    }
}

/// Where a fetch of va goes, by the same hint, which a new page refreshes.
#[inline]
pub fn fetch_pa(core: &mut Core, va: u64, ans: &mut Report, base: u64, ram: &[u8]) -> u64 {
    match hint::fetch_served(core, va, base, ram.len() as u64) {
        Some(pa) => ended::<false>(core, va, Ok(pa), Work::none(), ans, base, ram),
        None => rest(core, va, ans, base, ram),
    }
}
