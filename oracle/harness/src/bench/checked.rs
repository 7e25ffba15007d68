//! The Rust behind the library's own signatures: numbers in and out, lent words of RAM, the descriptors read, and the
//! checks 1 to 3, 7 and 9 before pimu's function. So both sides do the same work.
use super::rust::{found, Quick};
use super::{flipped, met, repeat, summed, told, Work, DONE, STORED};
use crate::census::{Counts, COUNTS};
use crate::library::Answer;
use crate::number::{CHECK_LIST, FAULT, NAMES_NOTHING, PAGE_FAULTS, UNDEFINED, UNIMPLEMENTED};
use crate::windows::{List, PageFault};
use crate::{refusal, rust, Ram};
use pimu::aarch64::access::{self, Halt};
use pimu::aarch64::{Abort, Cpu, Exception, Memory};
use std::hint::black_box;

/// RAM that counts the reads of eight bytes.
struct Counting<'a> {
    ram: Quick<'a>,
    reads: u64,
}

impl<'a> Counting<'a> {
    #[inline(always)]
    fn new(base: u64, bytes: &'a mut [u8]) -> Counting<'a> {
        let ram = Quick { base, bytes };
        Counting { ram, reads: 0 }
    }
}

impl Memory for Counting<'_> {
    #[inline(always)]
    fn read(&mut self, addr: u64, size: u32) -> Result<u64, Abort> {
        self.reads += u64::from(size == 8);
        self.ram.read(addr, size)
    }

    #[inline(always)]
    fn write(&mut self, addr: u64, size: u32, v: u64) -> Result<(), Abort> {
        self.ram.write(addr, size, v)
    }
}

/// An external abort's.
const EXTERNAL: u64 = FAULT + 0x10;

/// The number of the first of checks 1 and 2 that a call misses, or 0.
#[inline(always)]
fn missed(c: &Cpu, base: u64, len: usize) -> u64 {
    if c.el > 3 {
        1
    } else if len != 0 && base.checked_add(len as u64 - 1).is_none() {
        2
    } else {
        0
    }
}

/// The number of an abort, its address in `ans`.
#[inline(always)]
fn stopped(halt: Halt, ans: &mut Answer) -> u64 {
    match halt {
        Halt::Exception(Exception::DataAbort { addr, fsc, .. }) => {
            ans.value = addr;
            FAULT + u64::from(fsc)
        }
        Halt::Exception(_) => UNDEFINED,
        _ => UNIMPLEMENTED,
    }
}

#[inline(never)]
fn translate(c: &mut Cpu, va: u64, kind: u64, ans: &mut Answer, base: u64, ram: &mut [u8]) -> u64 {
    if !matches!(kind, 1 | 2 | 4) {
        return NAMES_NOTHING;
    }
    let n = missed(c, base, ram.len());
    if n != 0 {
        return n;
    }
    let m = &mut Counting::new(base, ram);
    let n = match access::mmu::translate(c, m, va, kind as u8) {
        Ok(pa) => {
            ans.value = pa;
            0
        }
        Err(status) => FAULT + u64::from(status),
    };
    ans.reads = m.reads;
    n
}

/// The eight bytes of a load that was made at once and reached memory.
#[inline(always)]
fn own(c: &Cpu, n: u64, va: u64, size: u64) -> u64 {
    let reached = size == 8 && matches!(n, 0 | EXTERNAL);
    (reached && (va & 0xFFF <= 0xFF8 || !access::mmu::is_on(c, c.el.max(1) as u8))) as u64
}

#[inline(never)]
fn load(c: &mut Cpu, va: u64, size: u64, ans: &mut Answer, base: u64, ram: &mut [u8]) -> u64 {
    let n = missed(c, base, ram.len());
    if n != 0 {
        return n;
    }
    if !matches!(size, 1 | 2 | 4 | 8) {
        return 3;
    }
    let m = &mut Counting::new(base, ram);
    let n = match access::load(c, m, va, size as u32) {
        Ok(v) => {
            ans.value = v;
            0
        }
        Err(halt) => stopped(halt, ans),
    };
    ans.reads = m.reads - own(c, n, va, size);
    n
}

#[inline(never)]
fn store(c: &mut Cpu, va: u64, size: u64, v: u64, ans: &mut Answer, base: u64, ram: &mut [u8]) -> u64 {
    let n = missed(c, base, ram.len());
    if n != 0 {
        return n;
    }
    if !matches!(size, 1 | 2 | 4 | 8) {
        return 3;
    }
    let m = &mut Counting::new(base, ram);
    let n = match access::store(c, m, va, size as u32, v) {
        Ok(()) => 0,
        Err(halt) => stopped(halt, ans),
    };
    ans.reads = m.reads;
    n
}

#[inline(never)]
fn census(c: &Cpu, first: u64, pages: u64, counts: &mut Counts, base: u64, ram: &mut [u8]) -> u64 {
    let n = missed(c, base, ram.len());
    if n != 0 {
        return n;
    }
    if refusal::over(first, pages) {
        return 7;
    }
    counts.fill(0);
    rust::census(c, &mut Quick { base, bytes: ram }, first, pages, counts);
    0
}

#[inline(never)]
fn windows(c: &Cpu, list: &[u8], out: &mut [u64; 3], base: u64, ram: &mut [u8]) -> u64 {
    let n = missed(c, base, ram.len());
    if n != 0 {
        return n;
    }
    let Some(list) = List::read(list) else {
        return CHECK_LIST;
    };
    match rust::windows(c, &mut Quick { base, bytes: ram }, list.windows()) {
        Ok(Some((first, second))) => *out = [1, first as u64, second as u64],
        Ok(None) => *out = [0; 3],
        Err(PageFault { window, page, status }) => {
            *out = [window as u64, page as u64, status.into()];
            return PAGE_FAULTS;
        }
    }
    0
}

#[inline(never)]
#[allow(clippy::too_many_arguments)]
fn flip(c: &Cpu, va: u64, kind: u64, user: u64, out: &mut [u64; 3], base: u64, ram: &mut [u8]) -> u64 {
    if !matches!(kind, 1 | 2 | 4) || user > 1 {
        return NAMES_NOTHING;
    }
    let n = missed(c, base, ram.len());
    if n != 0 {
        return n;
    }
    let found = found(c, &mut Quick { base, bytes: ram }, va, kind as u8, user == 1);
    *out = found.map_or([0; 3], |(at, bit)| [1, at, bit.into()]);
    0
}

/// Of a flipped bit that was not refused.
pub(super) fn flipped_of(n: u64, out: &[u64; 3]) -> u64 {
    match (n, *out) {
        (0, [1, at, bit]) => flipped(Some((at, bit as u8))),
        (0, _) => flipped(None),
        _ => unreachable!(),
    }
}

/// Of a list that was right and of which no page faulted.
pub(super) fn met_of(n: u64, out: &[u64; 3]) -> u64 {
    match (n, *out) {
        (0, [1, first, second]) => met(Some((first as usize, second as usize))),
        (0, _) => met(None),
        _ => unreachable!(),
    }
}

/// Whether a case has this side.
pub fn has(work: Work) -> bool {
    matches!(
        work,
        Work::Translate(_)
            | Work::Load(_)
            | Work::Store(_)
            | Work::Census(_)
            | Work::Windows(_)
            | Work::Flip(..)
    )
}

pub fn run(work: Work, args: [u64; 2], c: &mut Cpu, ram: &mut Ram, n: usize) -> u64 {
    let base = black_box(ram.base);
    let bytes = &mut ram.bytes[..];
    let mut ans = Answer::default();
    let a = &mut ans;
    match black_box(work) {
        Work::Translate(kind) => {
            let kind = kind.into();
            repeat(n, args, |va| {
                summed(translate(c, va, kind, a, base, bytes), a.value, 0)
            })
        }
        Work::Load(size) => repeat(n, args, |va| {
            summed(load(c, va, size.into(), a, base, bytes), a.value, a.value)
        }),
        Work::Store(size) => {
            let v = black_box(STORED);
            repeat(n, args, |va| {
                summed(store(c, va, size.into(), v, a, base, bytes), DONE, a.value)
            })
        }
        Work::Census(pages) => {
            let counts = &mut [0; COUNTS];
            repeat(n, args, |first| {
                let n = census(c, first, pages, counts, base, bytes);
                summed(n, told(counts), 0)
            })
        }
        Work::Windows(lists) => {
            let (lists, out) = (lists.bytes(), &mut [0; 3]);
            repeat(n, args, |i| {
                let n = windows(c, &lists[i as usize], out, base, bytes);
                met_of(n, out)
            })
        }
        Work::Flip(kind, user) => {
            let (kind, user, out) = (kind.into(), user.into(), &mut [0; 3]);
            repeat(n, args, |va| {
                let n = flip(c, va, kind, user, out, base, bytes);
                flipped_of(n, out)
            })
        }
        _ => unreachable!("no such side"),
    }
}
