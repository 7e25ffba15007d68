//! pimu's Rust and the library's functions on a core, side by side in one process: the same cases, the same inputs.
//!
//! On the Rust's side the operation itself is called, behind one call that is not inlined, with RAM at its quickest;
//! the checks are not made there. On the library's side its exported function is called. Translations,
//! loads, stores, censuses, lists of windows and flipped bits have a third side: the Rust behind the library's signatures, with the checks.
//!
//! The core as plain Rust may stand in the library's place: its methods, with their checks, behind one call each.
mod cases;
mod checked;
mod four;
#[cfg(feature = "rattle")]
mod ours;
mod plain;
mod rust;
mod scene;
mod time;

pub use cases::cases;
pub use time::{time, Times};

use crate::census::Counts;
use crate::number::FAULT;
use crate::ffi::{boxed, saved, state_of, Held};
use crate::rust::RustCore;
use crate::windows::{encode, Window};
use crate::{Core, Ram};
use a72::Rate;
use scene::Scene;
use std::hint::black_box;

/// What is called. Each call has one argument more, which alternates between two values.
#[derive(Clone, Copy)]
pub enum Work {
    /// Kind; the argument is an address, as in the next five.
    Translate(u8),
    DataPa,
    FetchPa,
    /// Size.
    Load(u32),
    Store(u32),
    Fetch,
    /// op1, CRn, CRm, op2; the argument is the register's number.
    System([u32; 4]),
    /// Key; the argument is the value.
    Register(u32),
    Level,
    Mark,
    /// The general register's number; the argument is its value.
    General(u32),
    /// A data abort of a write; the argument is its address.
    DataAbort,
    /// The argument is the immediate.
    Svc,
    /// The number of pages; the argument is the first address.
    Census(u64),
    /// The argument is a number of cycles.
    Frames(Rate),
    /// The argument is 0 or 1: a list, or it turned round.
    Windows(Lists),
    /// Kind, and whether EL0's rights count; the argument is an address.
    Flip(u8, bool),
}

/// Lists of windows.
#[derive(Clone, Copy, Debug, PartialEq, Eq)]
pub enum Lists {
    /// 64 windows of sixteen pages, no page twice.
    Apart,
    /// The same, but the last window is the first again, or in the list turned round the first the last.
    Meeting,
    /// Sixteen windows of one page, no page twice.
    Sixteen,
}

impl Lists {
    /// A list, and the same turned round.
    fn bytes(self) -> [Vec<u8>; 2] {
        let (count, pages) = match self {
            Lists::Sixteen => (16, 1),
            _ => (64, 16),
        };
        let window = |i: u16| Window {
            start: 0x1_0000 * u64::from(i),
            pages,
        };
        let mut windows: Vec<Window> = (0..count).map(window).collect();
        if self == Lists::Meeting {
            windows[63] = windows[0];
        }
        let there = encode(&windows);
        windows.reverse();
        [there, encode(&windows)]
    }
}

/// What a list comes to, in the sum.
#[inline(always)]
fn met(found: Option<(usize, usize)>) -> u64 {
    found.map_or(1, |(first, second)| (first << 8 | second) as u64)
}

/// The first bit whose flip changes an answer, in the sum.
#[inline(always)]
fn flipped(found: Option<(u64, u8)>) -> u64 {
    found.map_or(1, |(at, bit)| at << 6 | u64::from(bit))
}

/// One line of the table.
pub struct Case {
    pub name: &'static str,
    /// The greatest ratio of the library's time to the Rust's that is asked for.
    pub bar: Option<f64>,
    /// The same of the plain core's.
    pub plain: Option<f64>,
    work: Work,
    args: [u64; 2],
    scene: Scene,
    /// Whether there are four cores, all begun alike, of which one is called.
    four: bool,
}

impl Case {
    /// What its times are of: one call, or one page of a census, whose calls take milliseconds.
    pub fn parts(&self) -> u64 {
        match self.work {
            Work::Census(pages) => pages,
            _ => 1,
        }
    }

    /// Whether a call takes a part of a millisecond or more.
    fn is_long(&self) -> bool {
        matches!(self.work, Work::Census(_) | Work::Windows(Lists::Apart | Lists::Meeting))
    }

    /// How many calls are enough where `many` of short ones would be: a long one is compared in all its counts.
    pub fn calls(&self, many: usize) -> usize {
        match self.work {
            Work::Census(_) => 2,
            _ if self.is_long() => 4,
            _ => many,
        }
    }
}

/// The value that every store writes.
const STORED: u64 = 0x1122_3344_5566_7788;

/// Which side runs.
#[derive(Clone, Copy, PartialEq, Eq)]
pub enum Side {
    Rust,
    /// The Rust with the checks, behind the library's signatures.
    Checked,
    /// The library, with the feature `rattle`.
    Ours,
    /// The core as plain Rust.
    Plain,
}

/// A case with both cores set up for it.
pub struct Pair {
    work: Work,
    args: [u64; 2],
    rust: Box<RustCore>,
    rust_ram: Ram,
    core: Held,
    plain: Box<a72::Core>,
    /// The three sides where there are four cores.
    four: Option<four::Quartet>,
    ram: Ram,
}

impl Pair {
    pub fn new(case: &Case) -> Pair {
        let (rust, ram) = case.scene.build();
        let mut core = Held::new();
        let words = boxed(&rust.state());
        core.restore(&words);
        let plain = Box::new(a72::Core::from_words(words));
        Pair {
            work: case.work,
            args: case.args,
            core,
            plain,
            four: case.four.then(|| four::Quartet::new(&rust)),
            rust: Box::new(rust),
            rust_ram: ram.clone(),
            ram,
        }
    }

    /// `n` calls; a sum over their answers. Those that count stay at one level.
    pub fn run(&mut self, side: Side, n: usize) -> u64 {
        if self.four.is_some() {
            return self.run_four(side, n);
        }
        let (work, args, ram) = (self.work, self.args, &mut self.rust_ram);
        match side {
            Side::Rust => self.rust.counting(|c| rust::run(work, args, &mut c.cpu, ram, n)),
            Side::Checked => self
                .rust
                .counting(|c| checked::run(work, args, &mut c.cpu, ram, n)),
            #[cfg(feature = "rattle")]
            Side::Ours => ours::run(work, args, &mut self.core, &mut self.ram, n),
            #[cfg(not(feature = "rattle"))]
            Side::Ours => unreachable!("the library wants the feature `rattle`"),
            Side::Plain => plain::run(work, args, &mut self.plain, &mut self.ram, n),
        }
    }

    fn run_four(&mut self, side: Side, n: usize) -> u64 {
        let (work, args) = (self.work, self.args);
        let four = self.four.as_mut().expect("four cores");
        match side {
            Side::Rust => four.run_rust(work, args, &mut self.rust_ram, n),
            #[cfg(feature = "rattle")]
            Side::Ours => four.run_ours(work, args, &mut self.ram, n),
            Side::Plain => four.run_plain(work, args, &mut self.ram, n),
            _ => unreachable!("no side of four cores"),
        }
    }

    /// Whether the case has the side with the checks.
    pub fn has_checked(&self) -> bool {
        self.four.is_none() && checked::has(self.work)
    }

    /// Whether the Rust and another side hold the same: whole state and RAM.
    pub fn agree(&self, side: Side) -> bool {
        if let Some(four) = &self.four {
            return four.agree(side == Side::Plain) && self.ram == self.rust_ram;
        }
        let words = match side {
            Side::Plain => self.plain.words(),
            _ => saved(&self.core),
        };
        state_of(&words[..]) == self.rust.state() && self.ram == self.rust_ram
    }
}

/// The loop of every measurement. The arguments come from memory, and the sum takes every answer.
#[inline(always)]
fn repeat(n: usize, args: [u64; 2], mut call: impl FnMut(u64) -> u64) -> u64 {
    let args = black_box(&args);
    let mut sum = 0u64;
    for i in 0..n {
        sum = sum.rotate_left(1).wrapping_add(call(args[i & 1]));
    }
    sum
}

/// The counts of a census, in the sum.
fn told(counts: &Counts) -> u64 {
    let add = |sum: u64, n: &u64| sum.wrapping_mul(3).wrapping_add(*n);
    counts.iter().fold(0, add)
}

/// Whole frames, and what is left of the next, in the sum.
#[inline(always)]
fn both((whole, rest): (u64, u64)) -> u64 {
    whole.wrapping_mul(3).wrapping_add(rest)
}

/// An answer without a value, and a fault's status, in the sum.
const DONE: u64 = 1;

#[inline(always)]
fn fault(status: u64, addr: u64) -> u64 {
    addr.wrapping_add(status << 50)
}

/// The answer's part of the sum, by the library's number: the value, or a fault's status and address.
#[inline(always)]
fn summed(n: u64, v: u64, addr: u64) -> u64 {
    if n == 0 {
        v
    } else {
        fault(n - FAULT, addr)
    }
}
