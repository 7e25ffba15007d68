//! Four cores over one RAM. What one of them leaves pending after an operation that is not refused, the other three
//! carry out, and it is pending no more. [`Four`] is the oracle: the rule on four of pimu's cores. Beside it stand four of
//! the second model ([`crate::model::DocFour`]), the cluster behind the C boundary ([`boundary`]) and that of plain Rust ([`plain`]).
//!
//! A trace is of one core until its first line `core N`: then that core is core 0, three fresh ones stand beside it, and
//! what follows is the core's of that number. Of a number above 3 there is no core: every operation gives 8, and nothing
//! changes.
pub mod boundary;
pub mod compare;
pub mod plain;

use crate::domain::{Judge, Reference};
use crate::op::{Ans, Op};
use crate::rust::RustCore;
use crate::wild::Part;
use crate::{Core, Ram, State};
use pimu::aarch64::access::Inval;

/// How many cores there are.
pub const CORES: usize = 4;

/// The number of the check that there is such a core.
pub const NO_CORE: Ans = Ans::Number(8);

/// The place of a core's number, where there is one.
pub fn place(number: u64) -> Option<usize> {
    usize::try_from(number).ok().filter(|i| *i < CORES)
}

/// Four cores, of which one is spoken to: what a [`Core`] does and says is that one's.
pub trait Cluster: Core {
    /// The number that is spoken to.
    fn number(&self) -> u64;
    /// Whether there are four; a trace begins with one core.
    fn is_several(&self) -> bool;
    /// All that core `i` holds.
    fn nth(&self, i: usize) -> State;
    /// Whether core `i` holds all that the Rust's does.
    fn same(&mut self, i: usize, rust: &RustCore) -> bool {
        self.nth(i) == rust.state()
    }
    /// The same of a core that has done nothing and heard nothing since it was last the same: at little cost.
    fn unmoved(&mut self, i: usize, rust: &RustCore) -> bool {
        self.same(i, rust)
    }
}

/// A core of the oracle's.
pub trait Member: Core + Clone + Default {
    /// The Rust's own core, of which pending and invalidation are.
    fn rust(&self) -> &RustCore;
    fn rust_mut(&mut self) -> &mut RustCore;
}

impl Member for RustCore {
    fn rust(&self) -> &RustCore {
        self
    }

    fn rust_mut(&mut self) -> &mut RustCore {
        self
    }
}

impl Member for Reference {
    fn rust(&self) -> &RustCore {
        &self.rust
    }

    fn rust_mut(&mut self) -> &mut RustCore {
        &mut self.rust
    }
}

/// Four of pimu's cores under the rule.
#[derive(Clone, Default)]
pub struct Four<C> {
    pub cores: [C; CORES],
    number: u64,
    /// Whether there are four: a trace begins with one core.
    several: bool,
    /// What the last operation handed on.
    pub shared: Option<Inval>,
}

impl<C: Member> Four<C> {
    /// The core that is spoken to; where there is none, core 0.
    pub fn spoken(&self) -> &C {
        &self.cores[place(self.number).unwrap_or(0)]
    }

    /// What core `i` leaves pending goes to the other three, and is pending no more.
    fn deliver(&mut self, i: usize) {
        self.shared = self.cores[i].rust_mut().cpu.tlb.broadcast.take();
        let Some(what) = self.shared else { return };
        for k in (0..CORES).filter(|k| *k != i) {
            self.cores[k].rust_mut().cpu.tlb.invalidate(what);
        }
    }
}

impl Four<Reference> {
    /// By whom the last operation was carried out.
    pub fn judge(&self) -> Judge {
        match place(self.number) {
            Some(i) => self.cores[i].judge,
            None => Judge::Contract,
        }
    }
}

impl<C: Member + 'static> Core for Four<C> {
    fn reset(&mut self) {
        self.cores.iter_mut().for_each(Core::reset);
        self.shared = None;
    }

    fn restart(&mut self) {
        self.reset();
        (self.number, self.several) = (0, false);
    }

    fn turn(&mut self, core: u64) {
        (self.number, self.several) = (core, true);
    }

    fn step(&mut self, op: &Op, ram: &mut Ram) -> Ans {
        self.shared = None;
        let Some(i) = place(self.number) else {
            return NO_CORE;
        };
        let answer = self.cores[i].step(op, ram);
        if self.several && op.is_step() && !answer.refuses() {
            self.deliver(i);
        }
        answer
    }

    fn reads(&self) -> u64 {
        place(self.number).map_or(0, |i| self.cores[i].reads())
    }

    fn state(&self) -> State {
        self.spoken().state()
    }

    fn load(&mut self, state: &State) {
        if let Some(i) = place(self.number) {
            self.cores[i].load(state);
        }
    }

    fn put(&mut self, part: &Part) {
        if let Some(i) = place(self.number) {
            self.cores[i].put(part);
        }
    }

    fn copy(&self) -> Box<dyn Core> {
        Box::new(self.clone())
    }
}

impl<C: Member + 'static> Cluster for Four<C> {
    fn number(&self) -> u64 {
        self.number
    }

    fn is_several(&self) -> bool {
        self.several
    }

    fn nth(&self, i: usize) -> State {
        self.cores[i].state()
    }
}
