// Written by tools/plain from crates/cpu/src/call.rt: change that.
//! Calls and replies.
use crate::stage1::exception::kind::{Exception, Stop};
use crate::stage1::fault::Fault;
use crate::stage1::system::decode::Encoding;
use crate::stage1::tlb::access::Kind;

/// One operation with its arguments, as anyone may ask for it.
#[derive(Clone, Copy, Debug, PartialEq, Eq)]
pub enum Call {
    Translate(Kind, u64),
    DataPa(u64),
    FetchPa(u64),
    /// address and size
    Load(u64, u64),
    /// address, size and value
    Store(u64, u64, u64),
    Fetch(u64),
    System(Encoding),
    /// key and value
    Register(u32, u64),
    Level(u64),
    Mark(bool),
    /// number and value
    General(u64, u64),
    Abort(Exception),
    /// the first address and the number of pages; what is counted stands beside the reply
    Census(u64, u64),
    /// the list of windows stands beside the call, what is found beside the reply
    Windows,
    /// kind, whether for EL0's view, and address; what is found stands beside the reply
    Flip(Kind, bool, u64),
}

/// What a call answers.
#[derive(Clone, Copy, Debug, PartialEq, Eq)]
pub enum Reply {
    /// the number of the first check that the call misses
    Refused(u8),
    Done,
    Value(u64),
    /// `data_pa` and `fetch_pa` say no more of a fault
    Faults,
    /// a translation's fault, and the address translated
    Fault {
        addr: u64,
        fault: Fault,
    },
    Stopped(Stop),
}
