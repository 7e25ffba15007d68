//! A trace of flipped bits: a walk that ends at any level by a descriptor of each of the four values of the two lowest
//! bits, both granules, from each level at which a walk may begin, in every range. All tables are one granule of memory,
//! of which five words are RAM.
use crate::generate::keys::{SCTLR, TCR, TTBR0, TTBR1};
use crate::op::{Line, Op};

const TABLE: u64 = 0x4000_0000;
/// log2 of the granule's bytes, the size field, the level at which the walk begins.
const SHAPES: [(u32, u64, u32); 6] = [
    (12, 16, 0),
    (12, 25, 1),
    (12, 34, 2),
    (16, 16, 1),
    (16, 22, 2),
    (16, 35, 3),
];

/// The word of the table that a level reads.
fn at(level: u32) -> u64 {
    TABLE + 8 * u64::from(level + 1)
}

/// The table as each level's, and at a level a page or block, accessed.
fn tables(start: u32, end: u32, bits: u64) -> Vec<Line> {
    let mut lines = vec![Line::Zero];
    lines.extend((start..end).map(|level| Line::Poke(at(level), TABLE | 3)));
    lines.push(Line::Poke(
        at(end),
        0x5000_0440 & if bits == 0 { 0 } else { !0 } | bits,
    ));
    lines
}

fn registers(regime: usize, upper: bool, granule: u32, size: u64) -> Vec<Op> {
    let tcr = match (upper, granule) {
        (true, 12) => size << 16 | 2 << 30,
        (true, _) => size << 16 | 3 << 30,
        (false, 12) => size,
        (false, _) => size | 1 << 14,
    };
    let ttbr = if upper { TTBR1 } else { TTBR0[regime] };
    vec![
        Op::Level(3),
        Op::Reg(TCR[regime], tcr),
        Op::Reg(ttbr, TABLE),
        Op::Reg(SCTLR[regime], 1),
    ]
}

pub fn lines() -> Vec<Line> {
    let mut lines = vec![Line::Fresh, Line::Window(TABLE, 0x28)];
    let mut asked = 0;
    for (granule, size, start) in SHAPES {
        let lsb = |level: u32| granule + (granule - 3) * (3 - level);
        let low: u64 = (start..4).map(|level| u64::from(level + 1) << lsb(level)).sum();
        for (regime, upper) in [(1, false), (1, true), (2, false), (3, false)] {
            let va = low | 0xABC | if upper { u64::MAX << (64 - size) } else { 0 };
            let own = registers(regime, upper, granule, size);
            lines.extend(own.into_iter().map(Line::Op));
            for end in start..4 {
                for bits in 0..4 {
                    lines.extend(tables(start, end, bits));
                    let (kind, user) = ([1, 2, 4][asked % 3], asked / 3 % 2 == 1);
                    let level = if regime == 1 {
                        asked as u32 / 6 % 2
                    } else {
                        regime as u32
                    };
                    asked += 1;
                    lines.push(Line::Op(Op::Level(level)));
                    lines.push(Line::Op(Op::Flip(kind, user, va)));
                }
            }
        }
    }
    lines
}
