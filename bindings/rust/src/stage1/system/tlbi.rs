// Written by tools/plain from crates/system/src/tlbi.rt: change that.
//! What a TLBI drops.

use crate::stage1::sysreg::regs::{Control, Regime};
use crate::stage1::system::decode::Encoding;
use crate::stage1::tlb::Inval;
use crate::stage1::walk::regime::Bank;

/// By address: a page where the regime's pages are 4 KiB, by TG0 and in EL1&0 by TG1 too; else everything.
#[inline]
fn page(control: &Control, regime: Regime, x: u64) -> Inval {
    let tcr = Bank::new(control, regime).tcr;
    if tcr >> 14 & 3 == 0 && (regime != Regime::El1 || tcr >> 30 & 3 == 2) {
        Inval::Page(x)
    } else {
        Inval::All
    }
}

/// By ASID: 16 or 8 bits, by TCR_EL1.AS.
#[inline]
fn asid(control: &Control, x: u64) -> Inval {
    let wide = control.tcr[1] >> 36 & 1 != 0;
    let mask = if wide { 0xFFFF } else { 0xFF };
    Inval::Asid((x >> 48) as u16 & mask)
}

/// What TLBI op1, CRm, op2 with the operand `x` drops: one page or one ASID's entries, and everything for the rest.
#[inline]
pub fn tlbi(control: &Control, e: Encoding, x: u64) -> Inval {
    match (e.op1, e.crm, e.op2) {
        (0, 3 | 7, 1 | 3 | 5 | 7) => page(control, Regime::El1, x),
        (0, 3 | 7, 2) => asid(control, x),
        (4, 3 | 7, 1 | 5) => page(control, Regime::El2, x),
        (6, 3 | 7, 1 | 5) => page(control, Regime::El3, x),
        _ => Inval::All,
    }
}
