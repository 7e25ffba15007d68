//! Random traces with structure: page tables that mostly work, and operations around their edges.
mod actions;
mod address;
mod census;
mod cores;
mod crossing;
mod flat;
mod flips;
pub mod keys;
mod registers;
mod rng;
mod scenario;
mod system;
mod tables;
mod voices;
mod wild;
mod window;
mod windows;

use crate::op::{Line, Op};
pub use cores::trace_of_cores;
pub use rng::Rng;
use std::collections::BTreeMap;
use tables::{Spot, Tree};

/// What a trace may hold.
#[derive(Clone, Copy, PartialEq, Eq, Debug)]
pub enum Style {
    /// The list, leaves and pokes.
    Full,
    /// Only the list.
    Strict,
    /// As full, and the core's state is overwritten with odd values.
    Wild,
}

pub struct Generator {
    r: Rng,
    /// For censuses.
    aside: Rng,
    /// For crossing accesses.
    across: Rng,
    /// For lists of windows.
    lists: Rng,
    /// For flipped bits.
    bits: Rng,
    lines: Vec<Line>,
    style: Style,
    /// The descriptors written, by address.
    mem: BTreeMap<u64, u64>,
    base: u64,
    len: u64,
    /// RAM from here on holds no table.
    free: u64,
    /// The output size code of each regime.
    ps: [u64; 4],
    trees: Vec<Tree>,
    spots: Vec<Spot>,
    /// The registers as the scenario has them.
    regs: BTreeMap<u32, u64>,
    level: u32,
    /// Where accesses gather.
    hot: usize,
    /// The last page of all and page 0 are both mapped.
    wrap: bool,
    /// Where a trace is of four cores.
    cores: Option<cores::Cores>,
}

/// A trace of about `n` operations; censuses, lists of windows, flipped bits, the accesses in [`crossing`] and what stands at the end
/// are not counted.
pub fn trace(seed: u64, n: usize, style: Style) -> Vec<Line> {
    let mut g = Generator::new(seed, style);
    let mut ops = 0;
    while ops < n {
        g.scenario();
        let length = 150 + g.r.below(350) as usize;
        let until = ops + length.min(n - ops);
        while ops < until {
            let before = g.lines.len();
            g.action();
            let counts = |l: &&Line| matches!(l, Line::Op(op) if !op.looks());
            ops += g.lines[before..].iter().filter(counts).count();
            g.cross();
        }
    }
    g.flat_edge(seed);
    g.voices(seed);
    g.flips(seed);
    g.lines
}

impl Generator {
    fn new(seed: u64, style: Style) -> Generator {
        Generator {
            r: Rng::new(seed),
            aside: Rng::new(!seed),
            across: Rng::new(seed.rotate_left(32) ^ 11),
            lists: Rng::new(seed.rotate_left(32) ^ 5),
            bits: Rng::new(seed.rotate_left(32) ^ 8),
            lines: Vec::new(),
            style,
            mem: BTreeMap::new(),
            base: 0,
            len: 0,
            free: 0,
            ps: [0; 4],
            trees: Vec::new(),
            spots: Vec::new(),
            regs: BTreeMap::new(),
            level: 3,
            hot: 0,
            wrap: false,
            cores: None,
        }
    }

    fn op(&mut self, op: Op) {
        self.lines.push(Line::Op(op));
    }

    fn reg(&mut self, k: u32, v: u64) {
        self.op(Op::Reg(k, v));
    }

    fn set_level(&mut self, l: u32) {
        self.level = l;
        self.op(Op::Level(l));
    }

    /// Back to the level that the scenario has.
    fn restore_level(&mut self) {
        self.op(Op::Level(self.level));
    }

    /// All descriptors as they were first written.
    fn write_tables(&mut self) {
        self.lines
            .extend(self.mem.iter().map(|(a, v)| Line::Poke(*a, *v)));
    }
}
