// Written by tools/plain from crates/walk/src/fsc.rt: change that.
//! Fault status codes as DFSC, IFSC and PAR_EL1.FST have them (DDI 0487, ESR_ELx). All but FSC_EXTERNAL take the level
//! in bits 1:0.

/// Address size fault: a table, its base or an output address lies beyond the output size.
pub const FSC_ADDR_SIZE: u8 = 0x00;
/// Translation fault: out of range, walks disabled, or no valid descriptor.
pub const FSC_TRANSLATION: u8 = 0x04;
/// Access flag fault.
pub const FSC_ACCESS_FLAG: u8 = 0x08;
/// Permission fault.
pub const FSC_PERMISSION: u8 = 0x0C;
/// External abort of the access itself.
pub const FSC_EXTERNAL: u8 = 0x10;
/// External abort of the read of a descriptor.
pub const FSC_WALK_EXTERNAL: u8 = 0x14;
