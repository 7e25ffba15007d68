// Written by tools/plain from crates/walk/src/descriptor.rt: change that.
//! A stage 1 descriptor by the manual's field names (DDI 0487, VMSAv8-64 translation table format descriptors).

use crate::stage1::word::bits;

/// What of a descriptor or base register is an address.
const PA_MASK: u64 = (1 << 48) - 1;

/// Bits 47 to n of a descriptor or base register, and zeros below.
#[inline(always)]
pub(crate) fn address(x: u64, n: u64) -> u64 {
    bits::align_down(x & PA_MASK, n)
}

/// Whether bits 47 to n are not all zero: an address beyond n bits.
#[inline(always)]
pub(crate) fn beyond(x: u64, n: u64) -> bool {
    (x & PA_MASK) >> n != 0
}

/// The bits of a descriptor.
#[derive(Clone, Copy, Debug, PartialEq, Eq)]
pub struct Descriptor(pub u64);

impl Descriptor {
    /// Not ignored.
    #[inline(always)]
    pub fn valid(self) -> bool {
        self.0 & 1 != 0
    }

    /// A table, or at level 3 a page; else a block.
    #[inline(always)]
    pub fn table_or_page(self) -> bool {
        self.0 >> 1 & 1 != 0
    }

    /// AP<1>: EL0 may read it.
    #[inline(always)]
    pub fn ap1(self) -> bool {
        self.0 >> 6 & 1 != 0
    }

    /// AP<2>: none may write it.
    #[inline(always)]
    pub fn ap2(self) -> bool {
        self.0 >> 7 & 1 != 0
    }

    /// The access flag.
    #[inline(always)]
    pub fn af(self) -> bool {
        self.0 >> 10 & 1 != 0
    }

    /// nG: for the ASID of the walk only.
    #[inline(always)]
    pub fn not_global(self) -> bool {
        self.0 >> 11 & 1 != 0
    }

    /// PXN: EL1 may not execute it.
    #[inline(always)]
    pub fn pxn(self) -> bool {
        self.0 >> 53 & 1 != 0
    }

    /// UXN, or XN: EL0, or EL2 or EL3, may not execute it.
    #[inline(always)]
    pub fn uxn(self) -> bool {
        self.0 >> 54 & 1 != 0
    }

    /// PXNTable: EL1 may execute nothing below.
    #[inline(always)]
    pub fn pxn_table(self) -> bool {
        self.0 >> 59 & 1 != 0
    }

    /// UXNTable, or XNTable: EL0, or EL2 or EL3, may execute nothing below.
    #[inline(always)]
    pub fn uxn_table(self) -> bool {
        self.0 >> 60 & 1 != 0
    }

    /// APTable<0>: EL0 may access nothing below.
    #[inline(always)]
    pub fn ap_table0(self) -> bool {
        self.0 >> 61 & 1 != 0
    }

    /// APTable<1>: none may write what is below.
    #[inline(always)]
    pub fn ap_table1(self) -> bool {
        self.0 >> 62 & 1 != 0
    }
}
