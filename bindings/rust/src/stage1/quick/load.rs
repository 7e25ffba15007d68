// Written by tools/plain from crates/quick/src/load.rt: change that.
//! A load on a core that is lent: its number, and in ans its value and what it read.

use crate::stage1::call_words::reply::{self, Report};
use crate::stage1::cpu::call::Reply;
use crate::stage1::cpu::{Core, check, place};
use crate::stage1::fault::Fault;
use crate::stage1::quick::instance::Datum;
use crate::stage1::quick::split;
use crate::stage1::tlb::access::Kind;
use crate::stage1::tlb::work::Work;
use crate::stage1::word::ram;
use crate::stage1::word::ram::Width;

/// The core's own load, for what is not served at once.
#[cold]
#[inline(never)]
fn own(core: &mut Core, va: u64, width: Width, ans: &mut Report, base: u64, ram: &[u8]) -> u64 {
    let mut work = Work::none();
    let r = Reply::from(core.read(base, ram, va, width, &mut work));
    reply::answer(r, work, ans)
}

/// Any size, and a window that ends at 2^64 or past it: the checks by name.
#[cold]
#[inline(never)]
pub(crate) fn checked(core: &mut Core, va: u64, size: u64, ans: &mut Report, base: u64, ram: &[u8]) -> u64 {
    match check::sized(core.privilege.level, base, ram.len() as u64, size) {
        Ok(width) => own(core, va, width, ans, base, ram),
        Err(missed) => missed.number() as u64,
    }
}

/// The same of a width, with six words to hand on.
#[cold]
#[inline(never)]
fn checked_as<W: Datum>(core: &mut Core, va: u64, ans: &mut Report, base: u64, ram: &[u8]) -> u64 {
    checked(core, va, W::WIDTH.bytes(), ans, base, ram)
}

/// Two pages: at once by both hints, or by the core's own load.
#[inline(always)]
pub(crate) fn pages<W: Datum>(core: &mut Core, va: u64, ans: &mut Report, base: u64, ram: &[u8]) -> u64 {
    if let Some((first, v)) = split::load(core, va, W::WIDTH, base, ram) {
        core.last_pa = first;
        *ans = Report { value: v, reads: 0 };
        return 0;
    }
    if 3 < core.privilege.level {
        checked_as::<W>(core, va, ans, base, ram)
    } else if u64::MAX - (ram.len() as u64) < base {
        checked_as::<W>(core, va, ans, base, ram)
    } else {
        own(core, va, W::WIDTH, ans, base, ram)
    }
}

/// The end of a load of one page, after its translation.
#[inline(always)]
pub(crate) fn ended<W: Datum>(
    core: &mut Core,
    va: u64,
    answer: Result<u64, Fault>,
    work: Work,
    ans: &mut Report,
    base: u64,
    ram: &[u8],
) -> u64 {
    ans.reads = work.reads;
    match answer {
        Ok(pa) => {
            core.last_pa = pa;
            match ram::read(base, ram, W::WIDTH, pa) {
                Some(v) => {
                    ans.value = v;
                    0
                }
                None => {
                    core.abort_pa = pa;
                    ans.value = va;
                    272
                }
            }
        }
        Err(fault) => {
            ans.value = va;
            256 + fault.fsc as u64
        }
    }
}

/// By a walk.
#[inline(never)]
fn by_walk<W: Datum>(core: &mut Core, va: u64, ans: &mut Report, base: u64, ram: &[u8]) -> u64 {
    let mut work = Work::none();
    let answer = core.by_walk(base, ram, va, Kind::Read, &mut work);
    ended::<W>(core, va, answer, work, ans, base, ram)
}

#[inline(always)]
pub(crate) fn past_hint<W: Datum>(core: &mut Core, va: u64, ans: &mut Report, base: u64, ram: &[u8]) -> u64 {
    match core.at_hand(base, ram, va, Kind::Read) {
        Some(answer) => ended::<W>(core, va, answer, Work::none(), ans, base, ram),
        None => by_walk::<W>(core, va, ans, base, ram),
    }
}

#[inline(always)]
fn by_hint<W: Datum>(core: &mut Core, va: u64, ans: &mut Report, base: u64, ram: &[u8]) -> u64 {
    match core.tlb.by_hint(core.privilege, va, Kind::Read) {
        Some(pa) => ended::<W>(core, va, Ok(pa), Work::none(), ans, base, ram),
        None => past_hint::<W>(core, va, ans, base, ram),
    }
}

#[inline(always)]
fn load_as<W: Datum>(core: &mut Core, va: u64, ans: &mut Report, base: u64, ram: &[u8]) -> u64 {
    if place::in_page(va) < W::WIDTH.bytes() {
        pages::<W>(core, va, ans, base, ram)
    } else if 3 < core.privilege.level {
        checked(core, va, W::WIDTH.bytes(), ans, base, ram)
    } else if u64::MAX - (ram.len() as u64) < base {
        checked(core, va, W::WIDTH.bytes(), ans, base, ram)
    } else {
        by_hint::<W>(core, va, ans, base, ram)
    }
}

/// A load of 1, 2, 4 or 8 bytes. The tests come in this order for the sake of the commonest size.
#[inline]
pub fn load(core: &mut Core, va: u64, size: u64, ans: &mut Report, base: u64, ram: &[u8]) -> u64 {
    if 4 < size {
        if size == 8 {
            load_as::<u64>(core, va, ans, base, ram)
        } else {
            checked(core, va, size, ans, base, ram)
        }
    } else if size == 4 {
        load_as::<u32>(core, va, ans, base, ram)
    } else if size == 2 {
        load_as::<u16>(core, va, ans, base, ram)
    } else if size == 1 {
        load_as::<u8>(core, va, ans, base, ram)
    } else {
        checked(core, va, size, ans, base, ram)
    }
}
