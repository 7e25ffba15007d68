// Written by tools/plain from crates/quick/src/translation.rt: change that.
//! One translation on a core that is lent, and where a data read goes: the number, and in ans the address and what was
//! read. Both are one text: TELLS says whether a fault is told by its status, or as no more than that.

use crate::stage1::call_words::reply::Report;
use crate::stage1::cpu::{Core, check};
use crate::stage1::fault::Fault;
use crate::stage1::quick::hint;
use crate::stage1::quick::instance::{Fetching, Purpose, Reading, Writing};
use crate::stage1::tlb::work::Work;

/// The answer of a translation.
#[inline(always)]
fn told<const TELLS: bool>(answer: Result<u64, Fault>, work: Work, ans: &mut Report) -> u64 {
    ans.reads = work.reads;
    match answer {
        Ok(pa) => {
            ans.value = pa;
            0
        }
        Err(fault) => {
            if TELLS {
                256 + fault.fsc as u64
            } else {
                256
            }
        }
    }
}

/// Where an access goes, a fault told as no more than that.
#[inline(always)]
pub(crate) fn reached(answer: Result<u64, Fault>, work: Work, ans: &mut Report) -> u64 {
    told::<false>(answer, work, ans)
}

/// By a walk.
#[inline(never)]
fn by_walk<P: Purpose, const TELLS: bool>(
    core: &mut Core,
    va: u64,
    ans: &mut Report,
    base: u64,
    ram: &[u8],
) -> u64 {
    let mut work = Work::none();
    let answer = core.by_walk(base, ram, va, P::KIND, &mut work);
    told::<TELLS>(answer, work, ans)
}

/// With stage 1 off, by an entry, or by a walk: each out of line of what comes before it, with six words to hand on.
#[inline(always)]
fn past_hint<P: Purpose, const TELLS: bool>(
    core: &mut Core,
    va: u64,
    ans: &mut Report,
    base: u64,
    ram: &[u8],
) -> u64 {
    match core.at_hand(base, ram, va, P::KIND) {
        Some(answer) => told::<TELLS>(answer, Work::none(), ans),
        None => by_walk::<P, TELLS>(core, va, ans, base, ram),
    }
}

#[inline(always)]
fn by_hint<P: Purpose, const TELLS: bool>(
    core: &mut Core,
    va: u64,
    ans: &mut Report,
    base: u64,
    ram: &[u8],
) -> u64 {
    match core.tlb.by_hint(core.privilege, va, P::KIND) {
        Some(pa) => told::<TELLS>(Ok(pa), Work::none(), ans),
        None => past_hint::<P, TELLS>(core, va, ans, base, ram),
    }
}

/// A level above 3, or a window that ends at 2^64 or past it: the checks by name.
#[cold]
#[inline(never)]
fn checked<P: Purpose, const TELLS: bool>(
    core: &mut Core,
    va: u64,
    ans: &mut Report,
    base: u64,
    ram: &[u8],
) -> u64 {
    match check::with_ram(core.privilege.level, base, ram.len() as u64) {
        Ok(()) => by_hint::<P, TELLS>(core, va, ans, base, ram),
        Err(missed) => missed.number() as u64,
    }
}

/// What is not served at once: the level, the window, and past the hint.
#[inline(always)]
fn rest<P: Purpose, const TELLS: bool>(
    core: &mut Core,
    va: u64,
    ans: &mut Report,
    base: u64,
    ram: &[u8],
) -> u64 {
    if 3 < core.privilege.level {
        checked::<P, TELLS>(core, va, ans, base, ram)
    } else if u64::MAX - (ram.len() as u64) < base {
        checked::<P, TELLS>(core, va, ans, base, ram)
    } else {
        past_hint::<P, TELLS>(core, va, ans, base, ram)
    }
}

#[inline(always)]
pub(crate) fn data_rest(core: &mut Core, va: u64, ans: &mut Report, base: u64, ram: &[u8]) -> u64 {
    rest::<Reading, false>(core, va, ans, base, ram)
}

/// Where a data read of va goes.
#[inline]
pub fn data_pa(core: &mut Core, va: u64, ans: &mut Report, base: u64, ram: &[u8]) -> u64 {
    match hint::served(core, va, 1, base, ram.len() as u64) {
        Some(pa) => {
            *ans = Report { value: pa, reads: 0 };
            0
        }
        None => data_rest(core, va, ans, base, ram),
    }
}

#[inline(always)]
fn address<P: Purpose>(core: &mut Core, va: u64, ans: &mut Report, base: u64, ram: &[u8]) -> u64 {
    rest::<P, true>(core, va, ans, base, ram)
}

/// By kind. Its arguments are those of the call in their order, so that it is jumped to.
#[inline(always)]
pub(crate) fn kind_asked(
    core: &mut Core,
    va: u64,
    kind: u64,
    ans: &mut Report,
    base: u64,
    ram: &[u8],
) -> u64 {
    if kind < 2 {
        if kind == 1 {
            address::<Reading>(core, va, ans, base, ram)
        } else {
            64
        }
    } else if kind == 2 {
        address::<Writing>(core, va, ans, base, ram)
    } else if kind == 4 {
        address::<Fetching>(core, va, ans, base, ram)
    } else {
        64
    }
}

/// The translation of va for an access of a kind: 1 read, 2 write, 4 fetch.
#[inline]
pub fn translate(core: &mut Core, va: u64, kind: u64, ans: &mut Report, base: u64, ram: &[u8]) -> u64 {
    match hint::served(core, va, kind, base, ram.len() as u64) {
        Some(pa) => {
            *ans = Report { value: pa, reads: 0 };
            0
        }
        None => kind_asked(core, va, kind, ans, base, ram),
    }
}
