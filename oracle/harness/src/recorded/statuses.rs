//! A trace through every status of a walk, at every level and with both granules, by every operation that translates.
use crate::generate::keys::{SCTLR, TCR, TTBR0};
use crate::op::{Line, Op};

const BASE: u64 = 0x4000_0000;

/// Tables one after another from [`BASE`], each with one descriptor in use.
struct Chain {
    /// log2 of the granule's bytes.
    granule: u32,
    start: u32,
    /// The address that uses the descriptors.
    va: u64,
}

impl Chain {
    fn new(granule: u32) -> Chain {
        let mut chain = Chain {
            granule,
            start: if granule == 12 { 0 } else { 1 },
            va: 0x128,
        };
        for level in chain.start..4 {
            chain.va |= Chain::index(level) << chain.lsb(level);
        }
        chain
    }

    fn index(level: u32) -> u64 {
        u64::from(level) + 1
    }

    fn lsb(&self, level: u32) -> u32 {
        self.granule + (self.granule - 3) * (3 - level)
    }

    fn table(&self, level: u32) -> u64 {
        BASE + (u64::from(level - self.start) << self.granule)
    }

    /// The page that the last table maps.
    fn page(&self) -> u64 {
        self.table(3) + (1 << self.granule)
    }

    fn poke(&self, level: u32, d: u64) -> Line {
        Line::Poke(self.table(level) + 8 * Chain::index(level), d)
    }

    /// The next table, or a page that EL0 and EL1 may read and write and EL0 may fetch.
    fn good(&self, level: u32) -> u64 {
        if level == 3 {
            self.page() | 0x443
        } else {
            self.table(level + 1) | 3
        }
    }

    /// A leaf of this level over the window's start, with no attribute set.
    fn bare_leaf(&self, level: u32) -> u64 {
        BASE & !((1 << self.lsb(level)) - 1) | if level == 3 { 3 } else { 1 }
    }

    /// Descriptors that fault or take a right away. The output size is 32 bits.
    fn bad(&self, level: u32) -> Vec<u64> {
        let high = 1 << 32;
        let leaf = self.bare_leaf(level);
        // Translation; output too large, before the access flag.
        let mut bad = vec![0, leaf | high];
        if level == 3 {
            // No leaf of level 3; outside the window.
            bad.extend([0x441, 0x9000_0443]);
        } else {
            // Next table too large; outside the window; with attributes.
            let next = self.table(level + 1) | 3;
            bad.extend([high | 3, 0x9000_0003, next | 1 << 61, next | 1 << 60 | 1 << 62]);
        }
        if level == 3 || self.lsb(level) < 39 && level > self.start {
            // Access flag; no EL0; read-only; no fetch; not global.
            bad.extend([
                leaf,
                leaf | 0x400,
                leaf | 0x4C0,
                leaf | 0x440 | 3 << 53,
                leaf | 0xC40,
            ]);
        }
        bad
    }

    fn tcr(&self) -> u64 {
        let granule_code = if self.granule == 12 { 0 } else { 1 };
        16 | granule_code << 14 | 2 << 30
    }

    fn registers(&self) -> [Line; 3] {
        [(TCR[1], self.tcr()), (TTBR0[1], BASE), (SCTLR[1], 1)].map(|(k, v)| Line::Op(Op::Reg(k, v)))
    }
}

/// Every operation that translates, at EL0 (AT at EL1, for EL0 and EL1).
fn asks(va: u64) -> Vec<Op> {
    vec![
        Op::Sys(0, 8, 7, 0, 0),
        Op::Sys(0, 7, 8, 2, 1),
        Op::Sys(0, 7, 8, 1, 1),
        Op::Level(0),
        Op::Translate(1, va),
        Op::Translate(2, va),
        Op::Translate(4, va),
        Op::FetchPa(va),
        Op::Load(va, 8),
        Op::Store(va, 8, 0x1122_3344_5566_7788),
        Op::Fetch(va),
        Op::Sys(3, 7, 4, 1, 1),
        Op::Level(1),
    ]
}

fn one(granule: u32) -> Vec<Line> {
    let chain = Chain::new(granule);
    let ask = || asks(chain.va).into_iter().map(Line::Op);
    let mut lines = vec![Line::Fresh, Line::Window(BASE, 6 << granule), Line::Zero];
    lines.extend(chain.registers());
    lines.extend([Line::Op(Op::SetX(1, chain.va)), Line::Op(Op::Level(1))]);
    for level in chain.start..4 {
        lines.push(chain.poke(level, chain.good(level)));
    }
    lines.extend(ask());
    for level in chain.start..4 {
        for bad in chain.bad(level) {
            lines.push(chain.poke(level, bad));
            lines.extend(ask());
        }
        lines.push(chain.poke(level, chain.good(level)));
    }
    // The first table outside the window; too large; EPD.
    for (k, v) in [
        (TTBR0[1], 0x9000_0000),
        (TTBR0[1], 1 << 40),
        (TCR[1], chain.tcr() | 1 << 7),
    ] {
        lines.push(Line::Op(Op::Reg(k, v)));
        lines.extend(ask());
        lines.extend(chain.registers());
    }
    lines
}

pub fn lines() -> Vec<Line> {
    [one(12), one(16)].concat()
}
