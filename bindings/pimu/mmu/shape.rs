//! pimu's registers of translation, and what the core is told of them.
use crate::aarch64::sysreg::SysRegs;
use a72::registers;

/// pimu's registers that decide translation and `AT`.
#[derive(Clone, PartialEq, Eq)]
pub(super) struct Shape {
    sctlr: [u64; 4],
    tcr: [u64; 4],
    ttbr0: [u64; 4],
    ttbr1_el1: u64,
    scr_el3: u64,
    hcr_el2: u64,
    mair: [u64; 4],
}

impl Shape {
    #[inline]
    pub(super) fn of(s: &SysRegs) -> Shape {
        Shape {
            sctlr: s.sctlr,
            tcr: s.tcr,
            ttbr0: s.ttbr0,
            ttbr1_el1: s.ttbr1_el1,
            scr_el3: s.scr_el3,
            hcr_el2: s.hcr_el2,
            mair: s.mair,
        }
    }

    /// Whether the registers that an answer without a walk reads, in this regime, are these.
    #[inline(always)]
    pub(super) fn answers(&self, s: &SysRegs, regime: u32) -> bool {
        let r = regime as usize & 3;
        let own = self.sctlr[r] ^ s.sctlr[r] | self.tcr[r] ^ s.tcr[r];
        own | self.scr_el3 ^ s.scr_el3 | self.hcr_el2 ^ s.hcr_el2 == 0
    }

    /// Whether those are these that `AT` of this regime reads.
    #[inline(always)]
    pub(super) fn walks(&self, s: &SysRegs, regime: u32) -> bool {
        let r = regime as usize & 3;
        let own = self.ttbr0[r] ^ s.ttbr0[r] | self.mair[r] ^ s.mair[r];
        own | self.ttbr1_el1 ^ s.ttbr1_el1 == 0 && self.answers(s, regime)
    }

    /// Whether all are these.
    #[inline(always)]
    pub(super) fn is(&self, s: &SysRegs) -> bool {
        (1..4).all(|regime| self.walks(s, regime))
    }
}

/// The registers that the core is told, and their values in pimu.
pub(super) fn told(s: &SysRegs) -> [(registers::Key, u64); 15] {
    [
        (registers::SCTLR_EL1, s.sctlr[1]),
        (registers::SCTLR_EL2, s.sctlr[2]),
        (registers::SCTLR_EL3, s.sctlr[3]),
        (registers::TCR_EL1, s.tcr[1]),
        (registers::TCR_EL2, s.tcr[2]),
        (registers::TCR_EL3, s.tcr[3]),
        (registers::TTBR0_EL1, s.ttbr0[1]),
        (registers::TTBR0_EL2, s.ttbr0[2]),
        (registers::TTBR0_EL3, s.ttbr0[3]),
        (registers::TTBR1_EL1, s.ttbr1_el1),
        (registers::SCR_EL3, s.scr_el3),
        (registers::HCR_EL2, s.hcr_el2),
        (registers::MAIR_EL1, s.mair[1]),
        (registers::MAIR_EL2, s.mair[2]),
        (registers::MAIR_EL3, s.mair[3]),
    ]
}
