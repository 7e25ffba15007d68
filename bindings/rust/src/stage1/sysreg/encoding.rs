// Written by tools/plain from crates/sysreg/src/encoding.rt: change that.
//! Encodings of system registers, and the registers that they name.

use crate::stage1::sysreg::regs::{Regime, Register};

/// `PAR_EL1`.
pub const PAR_EL1: u32 = 0xC3A0;

/// A system register's encoding, `op0:op1:CRn:CRm:op2` as in bits 20 to 5 of `MRS` and `MSR`.
#[inline]
pub fn key(op0: u32, op1: u32, crn: u32, crm: u32, op2: u32) -> u32 {
    (op0 << 14) | (op1 << 11) | (crn << 7) | (crm << 3) | op2
}

/// The banked register, and the level whose instance of it, that an encoding names.
#[inline]
pub fn banked(k: u32) -> Option<Register> {
    Some(match k {
        0xC080 => Register::Sctlr(Regime::El1),
        0xE080 => Register::Sctlr(Regime::El2),
        0xF080 => Register::Sctlr(Regime::El3),
        0xC100 => Register::Ttbr0(Regime::El1),
        0xE100 => Register::Ttbr0(Regime::El2),
        0xF100 => Register::Ttbr0(Regime::El3),
        0xC102 => Register::Tcr(Regime::El1),
        0xE102 => Register::Tcr(Regime::El2),
        0xF102 => Register::Tcr(Regime::El3),
        0xC200 => Register::Spsr(Regime::El1),
        0xE200 => Register::Spsr(Regime::El2),
        0xF200 => Register::Spsr(Regime::El3),
        0xC201 => Register::Elr(Regime::El1),
        0xE201 => Register::Elr(Regime::El2),
        0xF201 => Register::Elr(Regime::El3),
        0xC290 => Register::Esr(Regime::El1),
        0xE290 => Register::Esr(Regime::El2),
        0xF290 => Register::Esr(Regime::El3),
        0xC300 => Register::Far(Regime::El1),
        0xE300 => Register::Far(Regime::El2),
        0xF300 => Register::Far(Regime::El3),
        0xC510 => Register::Mair(Regime::El1),
        0xE510 => Register::Mair(Regime::El2),
        0xF510 => Register::Mair(Regime::El3),
        0xC600 => Register::Vbar(Regime::El1),
        0xE600 => Register::Vbar(Regime::El2),
        0xF600 => Register::Vbar(Regime::El3),
        0xC101 => Register::Ttbr1,
        0xE088 => Register::Hcr,
        0xF088 => Register::Scr,
        0xE000 => Register::Vpidr,
        0xE005 => Register::Vmpidr,
        _ => return None,
    })
}

/// The register kept that an encoding names: `PAR_EL1` or a banked one.
#[inline]
pub fn named(k: u32) -> Option<Register> {
    if k == PAR_EL1 {
        Some(Register::Par)
    } else {
        banked(k)
    }
}
