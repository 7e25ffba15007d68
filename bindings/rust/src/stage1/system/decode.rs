// Written by tools/plain from crates/system/src/decode.rt: change that.
//! The system operation that a SYS encoding names.

use crate::stage1::sysreg::regs::Regime;

/// The fields of SYS op1, CRn, CRm, op2, Xt, each as the instruction holds it.
#[derive(Clone, Copy, Debug, PartialEq, Eq)]
pub struct Encoding {
    pub op1: u64,
    pub crn: u64,
    pub crm: u64,
    pub op2: u64,
    pub rt: u64,
}

/// An address translation: its regime, whether EL0's rights are asked for, and whether for a write.
#[derive(Clone, Copy, Debug, PartialEq, Eq)]
pub struct AtForm {
    pub regime: Regime,
    pub user: bool,
    pub write: bool,
}

/// What a SYS encoding does at an exception level.
#[derive(Clone, Copy, Debug, PartialEq, Eq)]
pub enum SysOp {
    At(AtForm),
    Tlbi,
    /// DC ZVA.
    Zva,
    /// Cache maintenance, which is accepted and does nothing.
    Nothing,
    Undefined,
    Unimplemented,
}

/// AT: bit 0 of op2 is set for a write, bit 1 for EL0's rights.
#[inline]
fn at(regime: Regime, op2: u64) -> SysOp {
    SysOp::At(AtForm {
        regime,
        user: op2 & 2 != 0,
        write: op2 & 1 != 0,
    })
}

/// What SYS is at a level (DDI 0487, C5.3 to C5.5). EL0 has op1 3 alone; op1 0 is of EL1 and above, 4 of EL2 and
/// above, 6 of EL3.
#[inline(always)]
pub fn decode(level: u8, e: Encoding) -> SysOp {
    let refused = if level == 0 {
        SysOp::Undefined
    } else {
        SysOp::Unimplemented
    };
    match e.op1 {
        3 => match (e.crn, e.crm, e.op2) {
            (7, 4, 1) => SysOp::Zva,
            (7, 5 | 10..=11 | 14, 1) => SysOp::Nothing,
            _ => refused,
        },
        0 if 1 <= level => match (e.crn, e.crm, e.op2) {
            (7, 1 | 5, 0) | (7, 6 | 10 | 14, 1..=2) => SysOp::Nothing,
            (7, 8, 0..=3) => at(Regime::El1, e.op2),
            (8, _, _) => SysOp::Tlbi,
            _ => refused,
        },
        4 if 2 <= level => match (e.crn, e.crm, e.op2) {
            (7, 8, 0..=1) => at(Regime::El2, e.op2),
            (7, 8, 4..=7) => at(Regime::El1, e.op2),
            (8, _, _) => SysOp::Tlbi,
            _ => refused,
        },
        6 if 3 <= level => match (e.crn, e.crm, e.op2) {
            (7, 8, 0..=1) => at(Regime::El3, e.op2),
            (8, _, _) => SysOp::Tlbi,
            _ => refused,
        },
        _ => refused,
    }
}
