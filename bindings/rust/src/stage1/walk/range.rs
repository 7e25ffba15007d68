// Written by tools/plain from crates/walk/src/range.rt: change that.
//! What the registers say of a walk, and where it begins.

use crate::stage1::sysreg::regs::{Regime, SCTLR_WXN};
use crate::stage1::walk::fsc::{FSC_ADDR_SIZE, FSC_TRANSLATION};
use crate::stage1::walk::level::{Params, WalkState};
use crate::stage1::walk::regime::Bank;
use crate::stage1::walk::{descriptor, level};

/// The fields of TCR and TTBR for the range that an address lies in.
#[derive(Clone, Copy, Debug, PartialEq, Eq)]
pub struct Range {
    /// A granule of 64 KiB, and not of 4 KiB.
    pub largegrain: bool,
    /// TTBR0 or TTBR1.
    pub baseregister: u64,
    pub txsz: u64,
    /// EPD: walks of the range fault.
    pub disabled: bool,
    /// IPS or PS.
    pub ps: u64,
    pub upper: bool,
}

/// The implemented size of a physical address, in bits (`ID_AA64MMFR0_EL1.PARange`).
pub const PA_BITS: u64 = 44;

/// `TCR.{I}PS` to a number of bits: the smallest of 32 plus four times the code, 36 plus twice the code, and the
/// implemented size.
#[inline(always)]
pub fn pa_bits(ps: u64) -> u64 {
    let code = ps % 8;
    (32 + 4 * code).min(36 + 2 * code).min(PA_BITS)
}

impl Bank {
    /// The range that `va` lies in: one of two in the EL1&0 regime, the only one in the others.
    #[inline(always)]
    pub fn range(self, regime: Regime, va: u64) -> Range {
        let tcr = self.tcr;
        let upper = regime == Regime::El1 && va >> 55 & 1 != 0;
        if upper {
            return Range {
                largegrain: tcr >> 30 & 3 == 3,
                baseregister: self.ttbr1_el1,
                txsz: tcr >> 16 & 63,
                disabled: tcr >> 23 & 1 != 0,
                ps: tcr >> 32 & 7,
                upper,
            };
        }
        let only = regime.is_single();
        let ps = if only { tcr >> 16 } else { tcr >> 32 };
        Range {
            largegrain: tcr >> 14 & 3 == 1,
            baseregister: self.ttbr0,
            txsz: tcr & 63,
            disabled: !only && tcr >> 7 & 1 != 0,
            ps: ps & 7,
            upper,
        }
    }

    /// What holds at every level of a walk.
    #[inline(always)]
    pub fn params(self, regime: Regime, g: Range) -> Params {
        Params {
            largegrain: g.largegrain,
            outputsize: pa_bits(g.ps),
            singlepriv: regime.is_single(),
            wxn: self.sctlr & SCTLR_WXN != 0,
        }
    }
}

impl Range {
    /// How many bits an input address has: TxSZ is held to 16..39.
    #[inline(always)]
    fn input_size(self) -> u64 {
        64 - self.txsz.clamp(16, 39)
    }

    #[inline(always)]
    fn has(self, va: u64) -> bool {
        let inputsize = self.input_size();
        let high = va >> inputsize;
        if self.upper {
            high == u64::MAX >> inputsize
        } else {
            high == 0
        }
    }

    /// The level of the first table: each granule has a quotient of its own, by a constant, which costs no division.
    #[inline(always)]
    fn start(self, inputsize: u64) -> u64 {
        if self.largegrain {
            4 - (inputsize - 16).div_ceil(13)
        } else {
            4 - (inputsize - 12).div_ceil(9)
        }
    }

    /// Where a walk begins: the first table, or the status of the fault that keeps it from beginning: the address is out of
    /// range, walks are disabled or the table lies beyond the output size.
    #[inline(always)]
    pub(crate) fn begin(self, outputsize: u64, va: u64) -> Result<WalkState, u8> {
        if !self.has(va) || self.disabled {
            return Err(FSC_TRANSLATION);
        }
        if descriptor::beyond(self.baseregister, outputsize) {
            return Err(FSC_ADDR_SIZE);
        }
        let inputsize = self.input_size();
        let start = self.start(inputsize);
        let lsb = level::lsb_of(self.largegrain, start);
        Ok(WalkState {
            tables: 0,
            table: descriptor::address(self.baseregister, 3 + inputsize - lsb),
            top: inputsize,
            lsb,
            level: start as u8,
        })
    }
}
