// Written by tools/plain from crates/exception/src/kind.rt: change that.
//! The synchronous exceptions, and what stops an operation.
use crate::stage1::fault::Fault;

/// A faulted data access; `addr` is virtual.
#[derive(Clone, Copy, Debug, PartialEq, Eq)]
pub struct DataAbort {
    pub addr: u64,
    pub write: bool,
    pub fault: Fault,
}

/// A faulted fetch; `addr` is virtual.
#[derive(Clone, Copy, Debug, PartialEq, Eq)]
pub struct InsnAbort {
    pub addr: u64,
    pub fault: Fault,
}

/// A synchronous exception, raised by the instruction at the PC. SVC, HVC, SMC and BRK have their immediate.
#[derive(Clone, Copy, Debug, PartialEq, Eq)]
pub enum Exception {
    Undefined,
    Svc(u16),
    Hvc(u16),
    Smc(u16),
    Brk(u16),
    DataAbort(DataAbort),
    InsnAbort(InsnAbort),
    PcAlignment,
}

/// What stops an operation.
#[derive(Clone, Copy, Debug, PartialEq, Eq)]
pub enum Stop {
    Exception(Exception),
    /// A defined encoding that this core does not implement, so that a gap never passes for guest behaviour.
    Unimplemented,
}
