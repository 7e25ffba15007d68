// Written by tools/plain from crates/walk/src/flat.rt: change that.
//! The physical address with stage 1 off.

use crate::stage1::sysreg::regs::Regime;
use crate::stage1::walk::range::PA_BITS;
use crate::stage1::walk::regime::Bank;

/// The physical address of an untagged address with stage 1 off. `None` is an address size fault of level 0
/// (DDI 0487, AArch64.TranslateAddressS1Off).
#[inline(always)]
pub fn flat_of(untagged: u64) -> Option<u64> {
    (untagged >> PA_BITS == 0).then_some(untagged)
}

impl Bank {
    /// The physical address of `va`, tag and all, with stage 1 off.
    #[inline(always)]
    pub fn flat(&self, regime: Regime, va: u64) -> Option<u64> {
        flat_of(self.untag(regime, va))
    }
}
