//! The system registers kept: their keys, and where a core's words hold them.
use crate::place;

/// A register's encoding, as MSR and MRS name it: op0, op1, CRn, CRm and op2.
#[derive(Clone, Copy, Debug, PartialEq, Eq, PartialOrd, Ord, Hash)]
pub struct Key(u64);

impl From<u64> for Key {
    /// Any number; one of no register kept is refused where it is used.
    fn from(number: u64) -> Key {
        Key(number)
    }
}

impl From<Key> for u64 {
    #[inline]
    fn from(key: Key) -> u64 {
        key.0
    }
}

/// The key of a register's encoding.
pub const fn key(op0: u64, op1: u64, crn: u64, crm: u64, op2: u64) -> Key {
    Key(op0 << 14 | op1 << 11 | crn << 7 | crm << 3 | op2)
}

macro_rules! registers {
    ($($name:ident $op1:literal $crn:literal $crm:literal $op2:literal, $place:expr;)*) => {
        $(#[doc = concat!(stringify!($name), "'s key.")]
        pub const $name: Key = key(3, $op1, $crn, $crm, $op2);)*

        /// Each register's key, its name, and its place in a core's words.
        pub const ALL: &[(Key, &str, usize)] = &[$(($name, stringify!($name), $place),)*];
    };
}
registers! {
    SCTLR_EL1 0 1 0 0, place::SCTLR;
    SCTLR_EL2 4 1 0 0, place::SCTLR + 1;
    SCTLR_EL3 6 1 0 0, place::SCTLR + 2;
    TCR_EL1 0 2 0 2, place::TCR;
    TCR_EL2 4 2 0 2, place::TCR + 1;
    TCR_EL3 6 2 0 2, place::TCR + 2;
    TTBR0_EL1 0 2 0 0, place::TTBR0;
    TTBR0_EL2 4 2 0 0, place::TTBR0 + 1;
    TTBR0_EL3 6 2 0 0, place::TTBR0 + 2;
    TTBR1_EL1 0 2 0 1, place::TTBR1_EL1;
    MAIR_EL1 0 10 2 0, place::MAIR;
    MAIR_EL2 4 10 2 0, place::MAIR + 1;
    MAIR_EL3 6 10 2 0, place::MAIR + 2;
    VBAR_EL1 0 12 0 0, place::VBAR;
    VBAR_EL2 4 12 0 0, place::VBAR + 1;
    VBAR_EL3 6 12 0 0, place::VBAR + 2;
    ELR_EL1 0 4 0 1, place::ELR;
    ELR_EL2 4 4 0 1, place::ELR + 1;
    ELR_EL3 6 4 0 1, place::ELR + 2;
    SPSR_EL1 0 4 0 0, place::SPSR;
    SPSR_EL2 4 4 0 0, place::SPSR + 1;
    SPSR_EL3 6 4 0 0, place::SPSR + 2;
    ESR_EL1 0 5 2 0, place::ESR;
    ESR_EL2 4 5 2 0, place::ESR + 1;
    ESR_EL3 6 5 2 0, place::ESR + 2;
    FAR_EL1 0 6 0 0, place::FAR;
    FAR_EL2 4 6 0 0, place::FAR + 1;
    FAR_EL3 6 6 0 0, place::FAR + 2;
    SCR_EL3 6 1 1 0, place::SCR_EL3;
    HCR_EL2 4 1 1 0, place::HCR_EL2;
    VPIDR_EL2 4 0 0 0, place::VPIDR_EL2;
    VMPIDR_EL2 4 0 0 5, place::VMPIDR_EL2;
    PAR_EL1 0 7 4 0, place::PAR_EL1;
}

/// The place of a register in a core's words, by its key.
pub fn place(key: impl Into<Key>) -> Option<usize> {
    let key = key.into();
    ALL.iter().find(|(k, ..)| *k == key).map(|(_, _, place)| *place)
}

/// The name of a register, by its key.
pub fn name(key: impl Into<Key>) -> Option<&'static str> {
    let key = key.into();
    ALL.iter().find(|(k, ..)| *k == key).map(|(_, name, _)| *name)
}
