// Written by tools/plain from crates/cpu/src/reply.rt: change that.
//! Each operation's answer as a reply.

use crate::stage1::cpu::call::Reply;
use crate::stage1::cpu::check::Check;
use crate::stage1::exception::kind::{Exception, Stop};
use crate::stage1::fault::Fault;
use crate::stage1::sysreg::write::WriteError;

impl Reply {
    /// Of a translation of va: a fault is reported at va.
    #[inline]
    pub fn translated(va: u64, answer: Result<u64, Fault>) -> Reply {
        match answer {
            Ok(pa) => Reply::Value(pa),
            Err(fault) => Reply::Fault { addr: va, fault },
        }
    }

    /// Of `data_pa` and `fetch_pa`.
    #[inline]
    pub fn reached(answer: Option<u64>) -> Reply {
        match answer {
            Some(pa) => Reply::Value(pa),
            None => Reply::Faults,
        }
    }

    /// Whether the call was refused, by a check or as Undefined or Unimplemented: then it changed nothing.
    #[inline]
    pub fn refuses(self) -> bool {
        matches!(
            self,
            Reply::Refused(_)
                | Reply::Stopped(Stop::Unimplemented)
                | Reply::Stopped(Stop::Exception(Exception::Undefined))
        )
    }
}

/// Of a call that misses a check.
impl From<Check> for Reply {
    #[inline]
    fn from(check: Check) -> Reply {
        Reply::Refused(check.number())
    }
}

/// Of a load.
impl From<Result<u64, Stop>> for Reply {
    #[inline]
    fn from(answer: Result<u64, Stop>) -> Reply {
        match answer {
            Ok(v) => Reply::Value(v),
            Err(stop) => Reply::Stopped(stop),
        }
    }
}

/// Of a store or a system operation.
impl From<Result<(), Stop>> for Reply {
    #[inline]
    fn from(answer: Result<(), Stop>) -> Reply {
        match answer {
            Ok(()) => Reply::Done,
            Err(stop) => Reply::Stopped(stop),
        }
    }
}

/// Of a fetch.
impl From<Result<u32, Exception>> for Reply {
    #[inline]
    fn from(answer: Result<u32, Exception>) -> Reply {
        match answer {
            Ok(v) => Reply::Value(u64::from(v)),
            Err(exception) => Reply::Stopped(Stop::Exception(exception)),
        }
    }
}

/// Of a register write: a key that names no register is check 6.
impl From<Result<(), WriteError>> for Reply {
    #[inline]
    fn from(answer: Result<(), WriteError>) -> Reply {
        match answer {
            Ok(()) => Reply::Done,
            Err(WriteError::Undefined) => Reply::Stopped(Stop::Exception(Exception::Undefined)),
            Err(WriteError::NoRegister) => Reply::from(Check::Key),
        }
    }
}
