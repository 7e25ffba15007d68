//! What an operation reports, and what stops it.
use crate::number::{FAULT, UNDEFINED, UNIMPLEMENTED, status};
use crate::operation::{Access, Exception, Status};
use crate::stage1::cpu::check;
use core::fmt::{self, Display, Formatter};

/// What an operation did for its answer ([`crate::Core::report`]).
#[derive(Clone, Copy, Debug, Default, PartialEq, Eq)]
pub struct Report {
    /// The descriptors that its table walks read, one that lies outside RAM too: at most four for each walk, and none
    /// where a hint or an entry of the cache answered, stage 1 is off, or the address is in no table's range.
    pub reads: u64,
}

/// A check that a call missed. The call changed nothing.
#[derive(Clone, Copy, Debug, PartialEq, Eq)]
pub enum Check {
    /// 1: the level, the present one or the one to be set, is above 3.
    Level = 1,
    /// 2: the window of RAM passes 2^64.
    Window,
    /// 3: the size is none of 1, 2, 4 and 8.
    Size,
    /// 4: a field of a system operation does not fit its bits.
    Field,
    /// 5: the general register's number is above 31.
    Number,
    /// 6: the key is that of no register kept.
    Key,
    /// 7: a census of more than [`crate::MOST_PAGES`] pages, or of a range that passes 2^64.
    Range,
    /// 8: the number of a core of a [`crate::Cluster`] is above 3.
    Core,
}

impl Check {
    /// The number of the check, 1 to 8.
    pub fn number(self) -> u64 {
        self as u64
    }

    /// The check of this number, 1 to 8.
    pub fn from_number(number: u64) -> Option<Check> {
        use Check::*;
        [Level, Window, Size, Field, Number, Key, Range, Core]
            .into_iter()
            .find(|check| check.number() == number)
    }
}

impl From<check::Check> for Check {
    fn from(missed: check::Check) -> Check {
        Check::from_number(missed.number().into()).expect("the number of a check")
    }
}

/// A fault of a translation or an access.
#[derive(Clone, Copy, Debug, PartialEq, Eq)]
pub struct Fault {
    /// What the access wanted.
    pub access: Access,
    /// The virtual address that faulted: of an access over two pages the lowest failing byte's. The first page's bytes
    /// outside RAM come before a fault of the second.
    pub address: u64,
    /// The status.
    pub status: Status,
}

impl Fault {
    /// The exception that the guest takes for it.
    pub fn exception(&self) -> Exception {
        let (address, status) = (self.address, self.status);
        match self.access {
            Access::Fetch => Exception::InstructionAbort { address, status },
            Access::Read | Access::Write => Exception::DataAbort {
                address,
                write: self.access == Access::Write,
                status,
            },
        }
    }
}

/// Why an operation did not end well.
#[derive(Clone, Copy, Debug, PartialEq, Eq)]
pub enum Stop {
    /// The call misses a check: nothing was changed.
    Refused(Check),
    /// A translation or an access faulted. No exception has been taken: [`crate::Core::take`] takes it.
    Fault(Fault),
    /// The operation is undefined at this level: nothing was changed.
    Undefined,
    /// The operation is defined, and pimu does not do it: nothing was changed.
    Unimplemented,
}

impl Stop {
    /// Whether the call was refused, by a check or as undefined or unimplemented: it changed nothing.
    pub(crate) fn refuses(&self) -> bool {
        !matches!(self, Stop::Fault(_))
    }

    /// The exception that the guest takes for it, if it is one.
    pub fn exception(&self) -> Option<Exception> {
        match self {
            Stop::Fault(fault) => Some(fault.exception()),
            Stop::Undefined => Some(Exception::Undefined),
            Stop::Refused(_) | Stop::Unimplemented => None,
        }
    }

    /// By the number ([`crate::number`]) that a function of the core gives where the operation is not done, or one of
    /// the library behind `include/a72.h`; `None` for a number that stops nothing. `access` and `address` are those
    /// of a fault.
    pub fn from_number(number: u64, access: Access, address: u64) -> Option<Stop> {
        if let Some(status) = status(number) {
            let status = Status(status);
            return Some(Stop::Fault(Fault {
                access,
                address,
                status,
            }));
        }
        match number {
            UNDEFINED => Some(Stop::Undefined),
            UNIMPLEMENTED => Some(Stop::Unimplemented),
            _ => Check::from_number(number).map(Stop::Refused),
        }
    }

    /// By a number that the core has just given: a fault's is the first to be asked for, since a guest makes many.
    #[inline(always)]
    pub(crate) fn of(number: u64, access: Access, address: u64) -> Stop {
        if number < FAULT {
            return Stop::not_done(number);
        }
        let status = Status(number as u8);
        Stop::Fault(Fault {
            access,
            address,
            status,
        })
    }

    /// By a number below a fault's.
    #[cold]
    fn not_done(number: u64) -> Stop {
        Stop::from_number(number, Access::Read, 0).expect("a number that stops an operation")
    }

    /// The same of a setting, which has few: where its checks are in line, so is what it gives.
    #[inline(always)]
    pub(crate) fn refused(number: u64) -> Stop {
        match number {
            1 => Stop::Refused(Check::Level),
            5 => Stop::Refused(Check::Number),
            6 => Stop::Refused(Check::Key),
            UNDEFINED => Stop::Undefined,
            n => Stop::not_done(n),
        }
    }
}

impl From<Check> for Stop {
    #[inline]
    fn from(missed: Check) -> Stop {
        Stop::Refused(missed)
    }
}

impl Display for Stop {
    fn fmt(&self, f: &mut Formatter) -> fmt::Result {
        match self {
            Stop::Refused(check) => write!(f, "refused by check {}", check.number()),
            Stop::Fault(fault) => {
                let access = match fault.access {
                    Access::Read => "read",
                    Access::Write => "write",
                    Access::Fetch => "fetch",
                };
                let (name, status) = (fault.status.name(), fault.status.0);
                write!(
                    f,
                    "{name} (status 0x{status:02x}) on a {access} at 0x{:x}",
                    fault.address
                )
            }
            Stop::Undefined => write!(f, "undefined"),
            Stop::Unimplemented => write!(f, "unimplemented"),
        }
    }
}

impl core::error::Error for Stop {}
