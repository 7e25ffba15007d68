// Written by tools/plain from crates/quick/src/store.rt: change that.
//! A store on a core that is lent: its number, RAM, and in ans the address of a data abort and what it read.

use crate::stage1::call_words::reply::{self, Report};
use crate::stage1::cpu::{Core, check, place};
use crate::stage1::fault::Fault;
use crate::stage1::quick::instance::Datum;
use crate::stage1::quick::split;
use crate::stage1::tlb::access::Kind;
use crate::stage1::tlb::work::Work;
use crate::stage1::word::ram;
use crate::stage1::word::ram::Width;

/// The core's own store, for what is not served at once.
#[cold]
#[inline(never)]
fn own(
    core: &mut Core,
    va: u64,
    width: Width,
    value: u64,
    ans: &mut Report,
    base: u64,
    ram: &mut [u8],
) -> u64 {
    let mut work = Work::none();
    let answer = core.write(base, ram, va, width, value, &mut work);
    reply::stored(answer, work, ans)
}

/// Any size, and a window that ends at 2^64 or past it: the checks by name.
#[cold]
#[inline(never)]
pub(crate) fn checked(
    core: &mut Core,
    va: u64,
    size: u64,
    value: u64,
    ans: &mut Report,
    base: u64,
    ram: &mut [u8],
) -> u64 {
    match check::sized(core.privilege.level, base, ram.len() as u64, size) {
        Ok(width) => own(core, va, width, value, ans, base, ram),
        Err(missed) => missed.number() as u64,
    }
}

/// The same of a width, with seven words to hand on.
#[cold]
#[inline(never)]
fn checked_as<W: Datum>(
    core: &mut Core,
    va: u64,
    value: u64,
    ans: &mut Report,
    base: u64,
    ram: &mut [u8],
) -> u64 {
    checked(core, va, W::WIDTH.bytes(), value, ans, base, ram)
}

/// Two pages: at once by both hints, or by the core's own store.
#[inline(always)]
pub(crate) fn pages<W: Datum>(
    core: &mut Core,
    va: u64,
    value: u64,
    ans: &mut Report,
    base: u64,
    ram: &mut [u8],
) -> u64 {
    if split::store(core, va, W::WIDTH, value, base, ram) {
        ans.reads = 0;
        return 0;
    }
    if 3 < core.privilege.level {
        checked_as::<W>(core, va, value, ans, base, ram)
    } else if u64::MAX - (ram.len() as u64) < base {
        checked_as::<W>(core, va, value, ans, base, ram)
    } else {
        own(core, va, W::WIDTH, value, ans, base, ram)
    }
}

/// The end of a store of one page, after its translation.
#[inline(always)]
pub(crate) fn ended<W: Datum>(
    core: &mut Core,
    va: u64,
    answer: Result<u64, Fault>,
    work: Work,
    value: u64,
    ans: &mut Report,
    base: u64,
    ram: &mut [u8],
) -> u64 {
    ans.reads = work.reads;
    match answer {
        Ok(pa) => {
            if ram::write(base, ram, W::WIDTH, pa, value) {
                0
            } else {
                core.abort_pa = pa;
                ans.value = va;
                272
            }
        }
        Err(fault) => {
            ans.value = va;
            256 + fault.fsc as u64
        }
    }
}

/// By a walk.
#[inline(never)]
fn by_walk<W: Datum>(
    core: &mut Core,
    va: u64,
    value: u64,
    ans: &mut Report,
    base: u64,
    ram: &mut [u8],
) -> u64 {
    let mut work = Work::none();
    let answer = core.by_walk(base, ram, va, Kind::Write, &mut work);
    ended::<W>(core, va, answer, work, value, ans, base, ram)
}

#[inline(always)]
pub(crate) fn past_hint<W: Datum>(
    core: &mut Core,
    va: u64,
    value: u64,
    ans: &mut Report,
    base: u64,
    ram: &mut [u8],
) -> u64 {
    match core.at_hand(base, ram, va, Kind::Write) {
        Some(answer) => ended::<W>(core, va, answer, Work::none(), value, ans, base, ram),
        None => by_walk::<W>(core, va, value, ans, base, ram),
    }
}

#[inline(always)]
fn by_hint<W: Datum>(
    core: &mut Core,
    va: u64,
    value: u64,
    ans: &mut Report,
    base: u64,
    ram: &mut [u8],
) -> u64 {
    match core.tlb.by_hint(core.privilege, va, Kind::Write) {
        Some(pa) => ended::<W>(core, va, Ok(pa), Work::none(), value, ans, base, ram),
        None => past_hint::<W>(core, va, value, ans, base, ram),
    }
}

#[inline(always)]
fn store_as<W: Datum>(
    core: &mut Core,
    va: u64,
    value: u64,
    ans: &mut Report,
    base: u64,
    ram: &mut [u8],
) -> u64 {
    if place::in_page(va) < W::WIDTH.bytes() {
        pages::<W>(core, va, value, ans, base, ram)
    } else if 3 < core.privilege.level {
        checked(core, va, W::WIDTH.bytes(), value, ans, base, ram)
    } else if u64::MAX - (ram.len() as u64) < base {
        checked(core, va, W::WIDTH.bytes(), value, ans, base, ram)
    } else {
        by_hint::<W>(core, va, value, ans, base, ram)
    }
}

/// A store of the low 1, 2, 4 or 8 bytes of a value. The tests come in this order for the sake of the commonest size.
#[inline]
pub fn store(
    core: &mut Core,
    va: u64,
    size: u64,
    value: u64,
    ans: &mut Report,
    base: u64,
    ram: &mut [u8],
) -> u64 {
    if 4 < size {
        if size == 8 {
            store_as::<u64>(core, va, value, ans, base, ram)
        } else {
            checked(core, va, size, value, ans, base, ram)
        }
    } else if size == 4 {
        store_as::<u32>(core, va, value, ans, base, ram)
    } else if size == 2 {
        store_as::<u16>(core, va, value, ans, base, ram)
    } else if size == 1 {
        store_as::<u8>(core, va, value, ans, base, ram)
    } else {
        checked(core, va, size, value, ans, base, ram)
    }
}
