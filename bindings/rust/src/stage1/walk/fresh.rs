// Written by tools/plain from crates/walk/src/fresh.rt: change that.
//! How an address ends with nothing cached: what AT, the page census and every other look at the tables start from.

use crate::stage1::sysreg::regs::Regime;
use crate::stage1::walk::fsc::FSC_ADDR_SIZE;
use crate::stage1::walk::level::Walked;
use crate::stage1::walk::regime::Bank;

/// A physical address, or as its walk ends. With stage 1 off an address that is too large ends in a fault of level 0.
#[derive(Clone, Copy, Debug, PartialEq, Eq)]
pub enum Fresh {
    Flat(u64),
    Ended(Walked),
}

impl Bank {
    /// The fresh answer of `va`, tag and all, in the regime, over the RAM that starts at `base`; and how many
    /// descriptors its walk read.
    #[inline(always)]
    pub fn fresh_with_reads(self, regime: Regime, va: u64, base: u64, ram: &[u8]) -> (Fresh, u8) {
        if self.stage1_on(regime) {
            let walked = self.walk(regime, self.untag(regime, va), base, ram);
            (Fresh::Ended(walked.end), walked.reads)
        } else {
            match self.flat(regime, va) {
                Some(pa) => (Fresh::Flat(pa), 0),
                None => (Fresh::Ended(Err(FSC_ADDR_SIZE)), 0),
            }
        }
    }

    /// The fresh answer alone.
    #[inline(always)]
    pub fn fresh(self, regime: Regime, va: u64, base: u64, ram: &[u8]) -> Fresh {
        self.fresh_with_reads(regime, va, base, ram).0
    }
}
