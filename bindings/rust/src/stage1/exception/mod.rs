// Written by tools/plain from crates/exception/src/lib.rt: change that.
//! Exceptions: what stops an operation, what a synchronous exception reports, where it goes, and how it is taken.
pub mod enter;
pub mod flags;
pub mod kind;
pub mod route;
pub mod syndrome;
