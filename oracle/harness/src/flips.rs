//! The first bit of RAM whose flip changes an answer, asked over chains of tables in small windows: every range, size and
//! granule, a walk that ends at any level, tables that map themselves, windows that cut a descriptor or begin at an odd
//! address, each level, kind and view, and stage 1 off. Of windows up to 4 KiB the Rust tries every bit of RAM.
use crate::compare::compare;
use crate::generate::keys::{HCR, SCR, SCTLR, TCR, TTBR0, TTBR1};
use crate::generate::Rng;
use crate::op::{Ans, Line, Op};
use crate::tally::Tally;
use crate::Core;
use std::collections::BTreeMap;

/// Which walk.
#[derive(Clone, Copy)]
pub struct Cell {
    regime: u32,
    upper: bool,
    size: u64,
    /// Pages of 64 KiB.
    big: bool,
}

impl Cell {
    /// Every one: 512.
    pub fn all() -> impl Iterator<Item = Cell> {
        (0..4 * 64 * 2).map(Cell::numbered)
    }

    pub fn any(r: &mut Rng) -> Cell {
        Cell::numbered(r.below(4 * 64 * 2))
    }

    fn numbered(n: u64) -> Cell {
        let (regime, upper) = [(1, false), (1, true), (2, false), (3, false)][n as usize % 4];
        Cell {
            regime,
            upper,
            size: n / 8,
            big: n / 4 % 2 == 1,
        }
    }

    fn granule(&self) -> u32 {
        if self.big {
            16
        } else {
            12
        }
    }

    fn input(&self) -> u32 {
        64 - self.size.clamp(16, 39) as u32
    }

    fn start(&self) -> u32 {
        4 - (self.input() - self.granule()).div_ceil(self.granule() - 3)
    }

    fn lsb(&self, level: u32) -> u32 {
        self.granule() + (self.granule() - 3) * (3 - level)
    }

    /// The words of the first table, and of any other.
    fn root(&self) -> u64 {
        1 << (self.input() - self.lsb(self.start()))
    }

    fn words(&self) -> u64 {
        1 << (self.granule() - 3)
    }

    /// A TCR of this cell, with an output size by its code, random elsewhere; now and then with EPD.
    fn tcr(&self, r: &mut Rng, output: u64) -> u64 {
        let (size, granule, code, closed) = match (self.regime, self.upper) {
            (1, true) => (16, 30, 32, 1 << 23),
            (1, false) => (0, 14, 32, 1 << 7),
            _ => (0, 14, 16, 0),
        };
        let pages = match (self.big, self.upper) {
            (true, true) => 3,
            (true, false) => 1,
            (false, upper) => r.of(&[0, 2, if upper { 1 } else { 3 }]),
        };
        let mask = 63 << size | 3 << granule | 7 << code | closed;
        let closed = if r.percent(2) { closed } else { 0 };
        r.word() & !mask | self.size << size | pages << granule | output << code | closed
    }
}

/// The words of a walk: all tables are one granule of memory.
struct Chain {
    /// Where that granule begins.
    table: u64,
    /// Which words of it are RAM: the first, and how many.
    first: u64,
    count: u64,
    /// By level from the start on: which word is read.
    words: Vec<u64>,
    /// What the output size lets through.
    output: u64,
}

impl Chain {
    fn new(cell: &Cell, r: &mut Rng, output: u64) -> Chain {
        let table = r.word() & (output - 1) & !(8 * cell.words() - 1);
        let count = r.of(&[1, 1, 2, 2, 3, 4, 8, 16, 16, 64]);
        let count = if r.percent(3) { 512 } else { count };
        let first = r.below(cell.words() - count + 1);
        let word = |_| first + r.below(count);
        Chain {
            table,
            first,
            count,
            words: (cell.start()..4).map(word).collect(),
            output,
        }
    }

    fn at(&self, word: u64) -> u64 {
        self.table + 8 * word
    }

    /// An address that reads these words.
    fn address(&self, cell: &Cell, r: &mut Rng) -> u64 {
        let mut va = r.word() & (8 * cell.words() - 1);
        for (level, word) in (cell.start()..4).zip(&self.words) {
            let table = if level == cell.start() {
                cell.root()
            } else {
                cell.words()
            };
            va |= word % table << cell.lsb(level);
        }
        if cell.upper {
            va |= !((1u64 << cell.input()) - 1);
        }
        match r.below(40) {
            0 => va ^ 1 << r.below(64),
            1..=8 => va ^ r.below(256) << 56,
            _ => va,
        }
    }

    fn ttbr(&self, cell: &Cell, r: &mut Rng) -> u64 {
        let root = self.words[0] & !(cell.root() - 1);
        let low = r.word() & (8 * cell.root() - 1);
        let base = if r.percent(2) { 1 << 47 } else { 0 };
        self.at(root) | base | low | r.word() & !((1 << 48) - 1)
    }

    /// A descriptor in which a walk may end.
    fn end(&self, r: &mut Rng) -> u64 {
        let junk = r.word() & 0x7FF0_0000_0000_0BFC;
        let oa = r.word() & (self.output - 1) & !0xFFF;
        let d = oa | junk | if r.percent(85) { 0x400 } else { 0 };
        match r.below(16) {
            0 | 1 => 0,
            2..=4 => d & !3,
            5 | 6 => d & !3 | 2,
            7..=10 => d & !3 | 1,
            11 => d | 3 | self.output,
            12 => self.table | junk | 0x403,
            _ => d | 3,
        }
    }

    /// Tables down to one of the levels, and there the end; a word that is read twice is a table.
    fn descriptors(&self, r: &mut Rng) -> BTreeMap<u64, u64> {
        let stop = r.below(self.words.len() as u64) as usize;
        let mut all = BTreeMap::new();
        all.insert(self.words[stop], self.end(r));
        for word in &self.words[..stop] {
            let bits = 0x403 | r.word() & 0xBFC;
            let limits = if r.percent(30) { r.below(16) << 59 } else { 0 };
            let wrong = if r.percent(3) { self.output } else { 0 };
            all.insert(*word, self.table | bits | limits | wrong);
        }
        all
    }

    /// The window: mostly the words, else cut, or from an odd address on.
    fn window(&self, r: &mut Rng) -> Line {
        let (base, len) = (self.at(self.first), 8 * self.count);
        let n = 1 + r.below(7);
        let (base, len) = match r.below(20) {
            0 | 1 => (base + n, len - n),
            2 => (base, len - n),
            3 => (base.wrapping_sub(n), len + n + r.below(9)),
            4 => (base + 8 * r.below(self.count), len - 8 * r.below(self.count)),
            5 => match r.below(4) {
                0 => (base, 0),
                1 => (len.wrapping_neg(), len + r.below(2)),
                _ => (base, 8 * r.below(self.count)),
            },
            _ => (base, len),
        };
        Line::Window(base, len)
    }
}

/// Registers for a walk of this cell, and a level of its regime.
fn settings(cell: &Cell, chain: &Chain, r: &mut Rng, code: u64) -> Vec<Op> {
    let regime = cell.regime as usize;
    let ttbr = if cell.upper { TTBR1 } else { TTBR0[regime] };
    let (off, blocked) = (r.percent(6), r.percent(4));
    let hcr = if blocked { r.of(&[1 << 27, 1 << 12]) } else { 0 };
    let level = if regime == 1 {
        r.below(2) as u32
    } else {
        cell.regime
    };
    vec![
        Op::Level(3),
        Op::Reg(SCR, r.below(2)),
        Op::Reg(HCR, hcr),
        Op::Reg(TCR[regime], cell.tcr(r, code)),
        Op::Reg(ttbr, chain.ttbr(cell, r)),
        Op::Reg(SCTLR[regime], r.word() & !1 | !off as u64),
        Op::Level(level),
        Op::Mark(r.percent(25)),
    ]
}

/// A window, tables in it, registers that use them, and each kind and view.
pub fn scene(cell: &Cell, r: &mut Rng) -> Vec<Line> {
    let code = r.below(8);
    let output = 1 << [32, 36, 40, 42, 44, 44, 44, 44][code as usize];
    let chain = Chain::new(cell, r, output);
    let mut lines = vec![chain.window(r), Line::Zero];
    if r.percent(30) {
        let words = chain.first..chain.first + chain.count;
        lines.extend(words.map(|w| Line::Poke(chain.at(w), r.word())));
    }
    let descriptors = chain.descriptors(r);
    lines.extend(descriptors.into_iter().map(|(w, d)| Line::Poke(chain.at(w), d)));
    lines.extend(settings(cell, &chain, r, code).into_iter().map(Line::Op));
    let va = chain.address(cell, r);
    if r.percent(30) {
        // The cache holds what the tables said.
        lines.push(Line::Op(Op::Translate(r.of(&[1, 2, 4]), va)));
        if r.percent(50) {
            lines.push(Line::Poke(chain.at(r.of(&chain.words)), chain.end(r)));
        }
    }
    for (kind, user) in [
        (1, false),
        (2, false),
        (4, false),
        (1, true),
        (2, true),
        (4, true),
    ] {
        lines.push(Line::Op(Op::Flip(kind, user, va)));
    }
    lines
}

/// Rounds of all cells on the Rust and another core.
pub struct Flips<'a> {
    other: &'a mut dyn Core,
    r: Rng,
    /// Granule and start level, and how often each answer came.
    pub seen: BTreeMap<String, BTreeMap<String, u64>>,
    pub tally: Tally,
    pub flips: u64,
}

impl<'a> Flips<'a> {
    pub fn new(other: &'a mut dyn Core) -> Flips<'a> {
        Flips {
            other,
            r: Rng::new(8),
            seen: BTreeMap::new(),
            tally: Tally::default(),
            flips: 0,
        }
    }

    /// Each cell once; the error is the first difference, with the lines before it.
    pub fn round(&mut self) -> Result<(), String> {
        Cell::all().try_for_each(|cell| self.cell(&cell))
    }

    fn cell(&mut self, cell: &Cell) -> Result<(), String> {
        let lines = scene(cell, &mut self.r);
        let head = format!(
            "granule {} KiB, start level {}",
            1 << (cell.granule() - 10),
            cell.start()
        );
        let answers = self.seen.entry(head).or_default();
        let (tally, flips) = (&mut self.tally, &mut self.flips);
        let difference = compare(&lines, self.other, |step| {
            tally.note(&step);
            if matches!(step.op, Op::Flip(..)) {
                *flips += 1;
                let class = match step.answer {
                    Ans::Bit(_, bit) => format!("bit {bit}"),
                    other => other.to_string(),
                };
                *answers.entry(class).or_default() += 1;
            }
        });
        let Some(d) = difference else { return Ok(()) };
        let before: String = lines[..d.at].iter().map(|l| format!("{l}\n")).collect();
        Err(format!("{before}{}", d.report))
    }
}
