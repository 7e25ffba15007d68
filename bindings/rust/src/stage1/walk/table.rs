// Written by tools/plain from crates/walk/src/table.rt: change that.
//! The translation table walk.

use crate::stage1::sysreg::regs::Regime;
use crate::stage1::walk::level;
use crate::stage1::walk::level::{Params, Step, WalkResult, WalkState};
use crate::stage1::walk::regime::Bank;

/// A table that a walk reads: where the walk stands, the address of the descriptor, and what that leads to.
#[derive(Clone, Copy, Debug, PartialEq, Eq)]
pub struct Visit {
    pub state: WalkState,
    pub at: u64,
    pub step: Step,
}

/// A table, or none.
pub type Visited = Option<Visit>;

/// The table that the walk from the state first reads after n others, if it reads so many.
#[inline]
fn visit_from(p: Params, first: WalkState, va: u64, base: u64, ram: &[u8], n: u8) -> Visited {
    let mut w = first;
    let mut left = n;
    'levels: loop {
        let step = level::lookup(p, w, va, base, ram);
        if left == 0 {
            let at = level::descriptor_address(p, w, va);
            break Some(Visit { state: w, at, step });
        }
        match step {
            Step::Next(next) => {
                w = next;
                left -= 1;
            }
            Step::Leaf(_) | Step::Fault(_) => break None,
        }
    }
}

impl Bank {
    /// The table walk and permission check (DDI 0487, AArch64.TranslationTableWalk of ARMv8.0), over the RAM that
    /// starts at `base`; `va` is already untagged and errors are fault status codes. Each descriptor that it reads
    /// counts, one that lies outside RAM too.
    #[inline(always)]
    pub fn walk(&self, regime: Regime, va: u64, base: u64, ram: &[u8]) -> WalkResult {
        let g = self.range(regime, va);
        let p = self.params(regime, g);
        let mut w = match g.begin(p.outputsize, va) {
            Ok(first) => first,
            Err(status) => {
                return WalkResult {
                    end: Err(status),
                    reads: 0,
                };
            }
        };
        let mut reads: u8 = 0;
        'levels: loop {
            reads += 1;
            match level::lookup(p, w, va, base, ram) {
                Step::Next(next) => w = next,
                Step::Leaf(leaf) => break WalkResult { end: Ok(leaf), reads },
                Step::Fault(status) => {
                    break WalkResult {
                        end: Err(status),
                        reads,
                    };
                }
            }
        }
    }

    /// The table that the walk of `va` reads after `n` others, if it reads so many: for those who show a walk.
    #[inline]
    pub fn visit(self, regime: Regime, va: u64, base: u64, ram: &[u8], n: u8) -> Visited {
        let g = self.range(regime, va);
        let p = self.params(regime, g);
        match g.begin(p.outputsize, va) {
            Ok(w) => visit_from(p, w, va, base, ram, n),
            Err(_) => None,
        }
    }
}
