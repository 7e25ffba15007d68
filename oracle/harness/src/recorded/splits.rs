//! A trace of loads and stores across the ends of pages, and across 2^64.
use crate::generate::keys::{SCTLR, TCR, TTBR0, TTBR1};
use crate::op::{Line, Op};

const BASE: u64 = 0x8000_0000;
/// Two bytes of the last page lie outside.
const LEN: u64 = 0x8FFE;

/// Two pages inside the window, one that it cuts, one outside.
const FULL: u64 = BASE + 0x6000;
const NEXT: u64 = BASE + 0x7000;
const CUT: u64 = BASE + 0x8000;
const OUTSIDE: u64 = 0x9000_0000;
const RIGHTS: u64 = 0x443;
const READ_ONLY: u64 = 0x4C3;

/// The lower range's pages from address 0 on; 0 is not mapped.
const PAGES: [u64; 9] = [
    FULL | RIGHTS,
    CUT | RIGHTS,
    NEXT | RIGHTS,
    0,
    FULL | RIGHTS,
    OUTSIDE | RIGHTS,
    FULL | READ_ONLY,
    NEXT | RIGHTS,
    OUTSIDE | RIGHTS,
];

/// Sizes, and how many bytes lie before the end of the page.
const SHAPES: [(u32, u64); 6] = [(2, 1), (4, 1), (4, 3), (8, 1), (8, 4), (8, 7)];

/// Tables of levels 1 to 3, at BASE for the lower range and at BASE + 0x3000 for the upper one, which maps only the
/// last page of all.
fn tables() -> Vec<Line> {
    let mut lines = vec![Line::Fresh, Line::Window(BASE, LEN), Line::Zero];
    let tables = [(0, 0x1003), (0x1000, 0x2003), (0x3FF8, 0x4003), (0x4FF8, 0x5003)];
    lines.extend(tables.map(|(at, table)| Line::Poke(BASE + at, BASE + table)));
    lines.push(Line::Poke(BASE + 0x5FF8, NEXT | RIGHTS));
    for (i, d) in PAGES.iter().enumerate() {
        lines.push(Line::Poke(BASE + 0x2000 + 8 * i as u64, *d));
    }
    let tcr = 25 | 25 << 16 | 2 << 30 | 2 << 32;
    for (k, v) in [
        (TCR[1], tcr),
        (TTBR0[1], BASE),
        (TTBR1, BASE + 0x3000),
        (SCTLR[1], 1),
    ] {
        lines.push(Line::Op(Op::Reg(k, v)));
    }
    lines.push(Line::Op(Op::Level(1)));
    lines
}

/// Every shape at the end of the page before `end`.
fn across(end: u64) -> Vec<Op> {
    let mut ops = Vec::new();
    for (size, before) in SHAPES {
        let va = end.wrapping_sub(before);
        ops.extend([
            Op::Store(va, size, 0x1122_3344_5566_7788 ^ va),
            Op::Load(va, size),
        ]);
    }
    ops
}

pub fn lines() -> Vec<Line> {
    let mut lines = tables();
    for page in 1..=PAGES.len() as u64 {
        lines.extend(across(page << 12).into_iter().map(Line::Op));
    }
    lines.extend(across(0).into_iter().map(Line::Op));
    // With page 0 outside the window, after a TLBI.
    lines.push(Line::Poke(BASE + 0x2000, OUTSIDE | RIGHTS));
    lines.push(Line::Op(Op::Sys(0, 8, 7, 0, 31)));
    lines.extend(across(0).into_iter().map(Line::Op));
    lines
}
