//! A trace through every form of TLBI.
use crate::generate::keys::{SCTLR, TCR, TTBR0};
use crate::op::{Line, Op};

/// Level 1 maps a page (not global) at 0x40000000 and a 2 MiB block (global) at 0x40200000.
fn tables() -> Vec<Line> {
    let mut lines = vec![Line::Fresh, Line::Window(0x8000_0000, 0x4000), Line::Zero];
    for (at, d) in [
        (0x8000_1008, 0x8000_2003),
        (0x8000_2000, 0x8000_3003),
        (0x8000_3000, 0x8000_0C43),
        (0x8000_2008, 0x8000_0441),
    ] {
        lines.push(Line::Poke(at, d));
    }
    // T0SZ 25, TG1 4 KiB, output 40 bits; the page belongs to ASID 5.
    let tcr = 0x2_8000_0019;
    for (k, v) in [(TCR[1], tcr), (TTBR0[1], 5 << 48 | 0x8000_1000), (SCTLR[1], 1)] {
        lines.push(Line::Op(Op::Reg(k, v)));
    }
    lines
}

/// Every op1 that names a regime, every op2, and the four CRm that the architecture names. Before each: both
/// translations, so that it finds something to drop.
pub fn lines() -> Vec<Line> {
    let mut ops = vec![Op::Level(1)];
    for op1 in [0, 4, 6] {
        for crm in [0, 3, 4, 7] {
            for op2 in 0..8 {
                // The page's own address, or another page of the block; ASID 5 or 6.
                let page: u64 = if op2 % 4 == 1 { 0x4_0201 } else { 0x4_0000 };
                let asid = 5 + u64::from(crm == 7);
                ops.extend([Op::Translate(1, 0x4000_0123), Op::Translate(2, 0x4020_0123)]);
                ops.extend([Op::SetX(op2, asid << 48 | page), Op::Level(3)]);
                ops.extend([Op::Sys(op1, 8, crm, op2, op2), Op::Level(1)]);
            }
        }
    }
    tables()
        .into_iter()
        .chain(ops.into_iter().map(Line::Op))
        .collect()
}
