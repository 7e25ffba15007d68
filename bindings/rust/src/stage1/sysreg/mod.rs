// Written by tools/plain from crates/sysreg/src/lib.rt: change that.
//! The system registers that are kept: how they are named, how they are written, and what of them shapes a translation.
pub mod encoding;
pub mod regs;
pub mod shape;
pub mod write;
