//! The plain core's side: its methods, each behind one call, as on the Rust's side.
use super::{both, fault, flipped, met, repeat, Work, DONE, STORED};
use crate::census::{COUNTS, FLAT, RIGHTS, STATUS};
use crate::plain::{access, view};
use crate::Ram;
use a72::registers::Key;
use a72::{
    Access, Census, Core, Exception, FlippedBit, Frames, Level, Ram as Window, Rate, Status, Stop,
    SystemOperation, View, WindowsError,
};
use std::hint::black_box;

#[inline(never)]
fn translate(c: &mut Core, m: &Window, va: u64, access: Access) -> Result<u64, Stop> {
    c.translate(m, va, access)
}

#[inline(never)]
fn data_pa(c: &mut Core, m: &Window, va: u64) -> Option<u64> {
    c.data_pa(m, va).ok().flatten()
}

#[inline(never)]
fn fetch_pa(c: &mut Core, m: &Window, va: u64) -> Option<u64> {
    c.fetch_pa(m, va).ok().flatten()
}

#[inline(never)]
fn load(c: &mut Core, m: &Window, va: u64, size: u32) -> Result<u64, Stop> {
    c.load_bytes(m, va, size.into())
}

#[inline(never)]
fn store(c: &mut Core, m: &mut Window, va: u64, size: u32, v: u64) -> Result<(), Stop> {
    c.store_bytes(m, va, size.into(), v)
}

#[inline(never)]
fn fetch(c: &mut Core, m: &Window, va: u64) -> Result<u32, Stop> {
    c.fetch(m, va)
}

#[inline(never)]
fn system(c: &mut Core, m: &mut Window, operation: SystemOperation) -> Result<(), Stop> {
    c.system(m, operation)
}

#[inline(never)]
fn register(c: &mut Core, key: Key, v: u64) -> Result<(), Stop> {
    c.write_register(key, v)
}

#[inline(never)]
fn level(c: &mut Core, level: Level) {
    assert!(c.set_level(level).is_ok());
}

#[inline(never)]
fn mark(c: &mut Core, on: bool) {
    assert!(c.set_unprivileged(on).is_ok());
}

#[inline(never)]
fn general(c: &mut Core, r: u32, v: u64) {
    assert!(c.set_general(r.into(), v).is_ok());
}

#[inline(never)]
fn census(c: &Core, m: &Window, first: u64, pages: u64) -> Result<Census, Stop> {
    c.census(m, first, pages)
}

#[inline(never)]
fn windows(c: &Core, m: &Window, list: &[u8]) -> Result<Option<(usize, usize)>, WindowsError> {
    c.windows_of_bytes(m, list)
}

#[inline(never)]
fn flip(c: &Core, m: &mut Window, va: u64, access: Access, view: View) -> Result<Option<FlippedBit>, Stop> {
    c.flip(m, va, access, view)
}

#[inline(never)]
fn frames(rate: Rate, cycles: u64) -> Frames {
    rate.frames(cycles)
}

/// A fault's status; 0 where it is none.
fn status(stop: Stop) -> u8 {
    match stop {
        Stop::Fault(fault) => fault.status.0,
        _ => 0,
    }
}

/// A fault's status, and of a data abort its address.
#[inline(always)]
fn summed(r: Result<u64, Stop>) -> u64 {
    match r {
        Ok(v) => v,
        Err(Stop::Fault(f)) if f.access == Access::Fetch => fault(f.status.0.into(), 0),
        Err(Stop::Fault(f)) => fault(f.status.0.into(), f.address),
        Err(_) => unreachable!(),
    }
}

#[inline(always)]
fn done(r: Result<(), Stop>) -> u64 {
    summed(r.map(|()| DONE))
}

/// The counts of a census in the order of the library's.
fn told(census: &Census) -> u64 {
    let mut counts = [0; COUNTS];
    counts[STATUS..STATUS + 64].copy_from_slice(&census.statuses);
    counts[RIGHTS..RIGHTS + 64].copy_from_slice(&census.rights);
    counts[FLAT] = census.flat;
    super::told(&counts)
}

pub fn run(work: Work, args: [u64; 2], c: &mut Core, ram: &mut Ram, n: usize) -> u64 {
    let m = &mut Window::new(black_box(ram.base), &mut ram.bytes);
    match black_box(work) {
        Work::Translate(kind) => {
            let access = access(kind);
            repeat(n, args, |va| match translate(c, m, va, access) {
                Ok(pa) => pa,
                Err(stop) => fault(status(stop).into(), 0),
            })
        }
        Work::DataPa => repeat(n, args, |va| data_pa(c, m, va).unwrap_or(fault(1, 0))),
        Work::FetchPa => repeat(n, args, |va| fetch_pa(c, m, va).unwrap_or(fault(1, 0))),
        Work::Load(size) => repeat(n, args, |va| summed(load(c, m, va, size))),
        Work::Store(size) => {
            let v = black_box(STORED);
            repeat(n, args, |va| done(store(c, m, va, size, v)))
        }
        Work::Fetch => repeat(n, args, |va| summed(fetch(c, m, va).map(u64::from))),
        Work::System(fields) => {
            let [op1, crn, crm, op2] = fields.map(u64::from);
            repeat(n, args, |rt| {
                done(system(c, m, SystemOperation::new(op1, crn, crm, op2, rt)))
            })
        }
        Work::Register(key) => {
            let key = Key::from(u64::from(key));
            repeat(n, args, |v| done(register(c, key, v)))
        }
        Work::Level => repeat(n, args, |l| {
            level(c, Level::from(l));
            DONE
        }),
        Work::Mark => repeat(n, args, |on| {
            mark(c, on != 0);
            DONE
        }),
        Work::General(r) => repeat(n, args, |v| {
            general(c, r, v);
            DONE
        }),
        Work::DataAbort => repeat(n, args, |address| {
            done(c.take(&Exception::DataAbort {
                address,
                write: true,
                status: Status(7),
            }))
        }),
        Work::Census(pages) => repeat(n, args, |first| match census(c, m, first, pages) {
            Ok(census) => told(&census),
            Err(_) => unreachable!(),
        }),
        Work::Frames(rate) => repeat(n, args, |cycles| {
            let Frames { whole, rest } = frames(rate, cycles);
            both((whole, rest))
        }),
        Work::Svc => repeat(n, args, |i| done(c.take(&Exception::Svc(i as u16)))),
        Work::Flip(kind, user) => {
            let (access, view) = (access(kind), view(user));
            repeat(n, args, |va| match flip(c, m, va, access, view) {
                Ok(found) => flipped(found.map(|cell| (cell.pa, cell.bit))),
                Err(_) => unreachable!(),
            })
        }
        Work::Windows(lists) => {
            let lists = lists.bytes();
            repeat(n, args, |i| match windows(c, m, &lists[i as usize]) {
                Ok(found) => met(found),
                Err(_) => unreachable!(),
            })
        }
    }
}
