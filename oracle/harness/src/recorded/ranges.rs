//! Censuses of 65,536 pages: by pages through two, three and four tables, by blocks, not mapped, over ends of both.
use crate::count::MOST_PAGES;
use crate::generate::keys::{SCTLR, TCR, TTBR0};
use crate::op::{Line, Op};

/// A table of pages, then one of blocks, then nothing.
const PAGES: u64 = 0x4000_0000;
const BLOCKS: u64 = PAGES + 0x1000;
const NOTHING: u64 = PAGES + 0x2000;
const BYTES: u64 = 0x3000;

/// Descriptors of the second table: one for each 2 MiB of 65,536 pages.
const COVER: u64 = 128;

/// AP, PXN and UXN by four bits of a number.
fn rights(i: u64) -> u64 {
    (i % 4) << 6 | (i / 4 % 4) << 53
}

/// The descriptors of the first lead to it again, and are pages at level 3.
fn tables() -> Vec<Line> {
    let page = |i: u64| (PAGES + 8 * i, PAGES | 0x403 | rights(i));
    let block = |i: u64| (BLOCKS + 8 * i, i << 21 | 0x401 | rights(i));
    let all = (0..512).map(page).chain((0..COVER).map(block));
    let pokes = all.map(|(at, v)| Line::Poke(at, v));
    [Line::Fresh, Line::Window(PAGES, BYTES)]
        .into_iter()
        .chain(pokes)
        .collect()
}

/// At EL3: the table, and T0SZ.
fn shape(table: u64, size: u64) -> [Op; 2] {
    [Op::Reg(TTBR0[1], table), Op::Reg(TCR[1], size)]
}

pub fn lines() -> Vec<Line> {
    let mut ops = vec![Op::Reg(SCTLR[1], 1), Op::Level(1)];
    // 28 bits of address are the 65,536 pages; 39 and 48 bits take one table and two more.
    for (table, size) in [
        (PAGES, 36),
        (PAGES, 25),
        (PAGES, 16),
        (BLOCKS, 36),
        (NOTHING, 36),
        (BYTES + PAGES, 36),
    ] {
        ops.extend(shape(table, size));
        ops.push(Op::Census(0x123, MOST_PAGES));
        ops.push(Op::Census(0x1F_8000, MOST_PAGES));
    }
    ops.extend(shape(PAGES, 36));
    ops.push(Op::Reg(SCTLR[1], 1 << 19 | 1));
    ops.extend([Op::Census(0, MOST_PAGES), Op::Census(0, MOST_PAGES + 1)]);
    tables()
        .into_iter()
        .chain(ops.into_iter().map(Line::Op))
        .collect()
}
