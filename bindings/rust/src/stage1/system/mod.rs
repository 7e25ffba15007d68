// Written by tools/plain from crates/system/src/lib.rt: change that.
//! System operations on small values: which one a SYS encoding names, what a TLBI drops, and PAR_EL1 after an AT.
pub mod decode;
pub mod par;
pub mod tlbi;
