//! What operations take: levels, kinds of access, widths, statuses, exceptions.
use crate::stage1::exception::kind::{self, DataAbort, InsnAbort};
use crate::stage1::fault;

/// An exception level. Any number is one: those above 3 are refused where a level is set.
#[derive(Clone, Copy, Debug, PartialEq, Eq, PartialOrd, Ord, Hash)]
pub struct Level(u64);

impl Level {
    /// EL0, that of applications.
    pub const EL0: Level = Level(0);
    /// EL1, that of a kernel.
    pub const EL1: Level = Level(1);
    /// EL2, that of a hypervisor.
    pub const EL2: Level = Level(2);
    /// EL3, that of a secure monitor; a core is there out of reset.
    pub const EL3: Level = Level(3);
}

impl From<u64> for Level {
    #[inline]
    fn from(number: u64) -> Level {
        Level(number)
    }
}

impl From<Level> for u64 {
    #[inline]
    fn from(level: Level) -> u64 {
        level.0
    }
}

/// What an access wants of a page.
#[derive(Clone, Copy, Debug, PartialEq, Eq)]
pub enum Access {
    /// A data read.
    Read = 1,
    /// A data write.
    Write = 2,
    /// An instruction fetch.
    Fetch = 4,
}

/// Whose rights judge an access. In the regimes of EL2 and EL3, which have no EL0, both are those of the level itself.
#[derive(Clone, Copy, Debug, PartialEq, Eq)]
pub enum View {
    /// Those of the regime's own level.
    Privileged = 0,
    /// Those of EL0.
    User = 1,
}

/// The size of a load or store.
#[derive(Clone, Copy, Debug, PartialEq, Eq)]
pub enum Width {
    /// One byte.
    Byte = 1,
    /// Two bytes.
    Half = 2,
    /// Four bytes.
    Word = 4,
    /// Eight bytes.
    Double = 8,
}

/// A fault's status, as ESR_ELx's DFSC and IFSC and PAR_EL1's FST hold it.
#[derive(Clone, Copy, Debug, PartialEq, Eq)]
pub struct Status(pub u8);

impl Status {
    /// The table level, where the status has one.
    pub fn level(self) -> Option<u8> {
        matches!(self.0, 0x00..=0x0F | 0x14..=0x17).then_some(self.0 & 3)
    }

    /// What went wrong, in words.
    pub fn name(self) -> &'static str {
        match self.0 {
            0x00..=0x03 => "address size fault",
            0x04..=0x07 => "translation fault",
            0x08..=0x0B => "access flag fault",
            0x0C..=0x0F => "permission fault",
            0x10 => "external abort",
            0x14..=0x17 => "external abort on a table walk",
            0x21 => "alignment fault",
            _ => "fault",
        }
    }
}

/// A synchronous exception, for [`crate::Core::take`].
#[derive(Clone, Copy, Debug, PartialEq, Eq)]
pub enum Exception {
    /// An undefined instruction.
    Undefined,
    /// SVC with its immediate.
    Svc(u16),
    /// HVC with its immediate.
    Hvc(u16),
    /// SMC with its immediate.
    Smc(u16),
    /// BRK with its immediate.
    Brk(u16),
    /// A data access that faulted.
    DataAbort {
        /// The virtual address.
        address: u64,
        /// Whether it was a write.
        write: bool,
        /// The fault's status.
        status: Status,
    },
    /// An instruction fetch that faulted.
    InstructionAbort {
        /// The virtual address.
        address: u64,
        /// The fault's status.
        status: Status,
    },
    /// A PC that is no multiple of four.
    PcAlignment,
}

impl Exception {
    /// The core's own.
    pub(crate) fn known(&self) -> kind::Exception {
        match *self {
            Exception::Undefined => kind::Exception::Undefined,
            Exception::Svc(immediate) => kind::Exception::Svc(immediate),
            Exception::Hvc(immediate) => kind::Exception::Hvc(immediate),
            Exception::Smc(immediate) => kind::Exception::Smc(immediate),
            Exception::Brk(immediate) => kind::Exception::Brk(immediate),
            Exception::DataAbort {
                address,
                write,
                status,
            } => {
                let fault = fault::first(status.0);
                kind::Exception::DataAbort(DataAbort {
                    addr: address,
                    write,
                    fault,
                })
            }
            Exception::InstructionAbort { address, status } => {
                let fault = fault::first(status.0);
                kind::Exception::InsnAbort(InsnAbort { addr: address, fault })
            }
            Exception::PcAlignment => kind::Exception::PcAlignment,
        }
    }
}
