// Written by tools/plain from crates/cpu/src/lib.rt: change that.
//! The core, as one machine: its memory, its system operations, its registers, and each call, checked in the order of
//! docs/SCOPE.md and then done.

use crate::stage1::exception::flags::Flags;
use crate::stage1::sysreg::regs::{Control, Regime, SysRegs};
use crate::stage1::tlb::Tlb;
use crate::stage1::tlb::access::Privilege;
use crate::stage1::walk::regime::Bank;

pub mod bytes;
pub mod call;
pub mod check;
pub mod inspect;
mod memory;
pub mod place;
mod registers;
pub mod reply;
mod step;
mod sys;

#[derive(Clone, Debug, PartialEq, Eq)]
pub struct Core {
    pub(crate) privilege: Privilege,
    pub(crate) flags: Flags,
    pub(crate) pc: u64,
    pub(crate) x: [u64; 31],
    /// all registers that translation reads, and the others
    pub(crate) control: Control,
    pub(crate) sys: SysRegs,
    pub(crate) tlb: Tlb,
    /// the physical address of the last load, and that of the last external abort
    pub(crate) last_pa: u64,
    pub(crate) abort_pa: u64,
}

impl Core {
    /// After reset.
    #[inline]
    pub fn new() -> Self {
        Core {
            privilege: Privilege {
                level: 3,
                unprivileged: false,
            },
            flags: Flags::new(),
            pc: 0,
            x: [0; 31],
            control: Control::new(),
            sys: SysRegs::new(),
            tlb: Tlb::new(),
            last_pa: 0,
            abort_pa: 0,
        }
    }

    /// A general register. Register 31 reads as zero.
    #[inline]
    pub fn reg(&self, n: u64) -> u64 {
        if n < 31 { self.x[n as usize] } else { 0 }
    }

    /// Register 31 drops what is written.
    #[inline]
    pub fn set_reg(&mut self, n: u64, value: u64) {
        if n < 31 {
            self.x[n as usize] = value;
        }
    }

    /// The regime of its level, EL1 at EL0.
    #[inline]
    pub fn regime(&self) -> Regime {
        Regime::of_level(self.privilege.level)
    }

    /// The registers of its regime.
    #[inline]
    pub fn bank(&self) -> Bank {
        Bank::new(&self.control, self.regime())
    }
}
