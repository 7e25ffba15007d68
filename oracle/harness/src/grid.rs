//! Every range, size, granule code and output size, each walked through a table that points to itself in a window of
//! eight bytes: a descriptor read anywhere else is a fault, so the place of every read is compared.
use crate::domain;
use crate::generate::Rng;
use crate::op::{Ans, Line, Op};
use crate::rust::RustCore;
use crate::{Core, Ram};
use pimu::aarch64::sysreg::key;
use std::collections::BTreeMap;

/// How a walk is asked for.
#[derive(Clone, Copy, PartialEq, Eq)]
pub enum Ask {
    /// By the leaf operation `l-walk`.
    Leaf,
    /// By the list alone: a translation, an AT and two censuses, and the states compared after them.
    List,
}

/// The parameters of one walk.
#[derive(Clone, Copy)]
struct Cell {
    regime: u32,
    upper: bool,
    size: u64,
    granule_code: u64,
    output_code: u64,
}

impl Cell {
    fn granule(&self) -> u32 {
        let big = if self.upper { 3 } else { 1 };
        if self.granule_code == big {
            16
        } else {
            12
        }
    }

    fn input(&self) -> u32 {
        64 - self.size.clamp(16, 39) as u32
    }

    /// The end of the range, or its start where it is the upper one.
    fn end(&self) -> u64 {
        let size = 1u64 << self.input();
        if self.upper {
            size.wrapping_neg()
        } else {
            size
        }
    }

    fn start(&self) -> u32 {
        4 - (self.input() - self.granule()).div_ceil(self.granule() - 3)
    }

    fn lsb(&self, level: u32) -> u32 {
        self.granule() + (self.granule() - 3) * (3 - level)
    }

    fn output(&self) -> u64 {
        [32, 36, 40, 42, 44, 44, 44, 44][self.output_code as usize]
    }

    /// A TCR with these fields, random elsewhere; now and then with EPD.
    fn tcr(&self, r: &mut Rng) -> u64 {
        let (size, granule, output, closed) = match (self.regime, self.upper) {
            (1, true) => (16, 30, 32, 1 << 23),
            (1, false) => (0, 14, 32, 1 << 7),
            _ => (0, 14, 16, 0),
        };
        let fields = self.size << size | self.granule_code << granule | self.output_code << output;
        let mask = 63 << size | 3 << granule | 7 << output | closed;
        let tcr = r.word() & !mask | fields;
        if r.percent(2) {
            tcr | 1 << 23 | 1 << 7
        } else {
            tcr
        }
    }
}

/// One walk: registers, address and window.
struct Walk {
    tcr: u64,
    ttbr: u64,
    sctlr: u64,
    va: u64,
    ram: Ram,
}

impl Walk {
    /// A word, a table that holds it, and an address whose every index is the word's.
    fn new(cell: &Cell, r: &mut Rng) -> Walk {
        let tcr = cell.tcr(r);
        let granule = cell.granule();
        let bits = if r.percent(90) { cell.output() } else { 48 };
        let word = r.word() & ((1u64 << bits) - 1) & !7;
        let root_size = 8u64 << (cell.input() - cell.lsb(cell.start()));
        let root = word & !(root_size - 1);
        let va = Walk::address(cell, word, root, r);
        let desc = Walk::descriptor(word & !((1 << granule) - 1), granule, r);
        let ttbr = root | r.word() & !((1 << 48) - 1) | r.word() & (root_size - 1);
        let mut ram = Ram::of(word, desc.to_le_bytes().to_vec());
        if r.percent(3) {
            ram.base = ram.base.wrapping_add(1) & !(1 << 63);
        }
        Walk {
            tcr,
            ttbr,
            sctlr: r.word(),
            va,
            ram,
        }
    }

    fn address(cell: &Cell, word: u64, root: u64, r: &mut Rng) -> u64 {
        let inside = (1 << cell.granule()) - 1;
        let slot = (word & inside) / 8;
        let mut va = ((word - root) / 8) << cell.lsb(cell.start());
        for level in cell.start() + 1..4 {
            va |= slot << cell.lsb(level);
        }
        va |= r.word() & inside;
        if cell.upper {
            va |= !((1u64 << cell.input()) - 1);
        }
        if r.percent(4) {
            va ^= 1 << r.below(64);
        }
        va
    }

    fn descriptor(table: u64, granule: u32, r: &mut Rng) -> u64 {
        let mut d = table | 0x403 | r.word() & 0x7FF0_0000_0000_0BFC;
        if r.percent(15) {
            d ^= 1 << r.of(&[0, 1, 10, 47, 44, 43, 32, u64::from(granule)]);
        }
        if r.percent(20) {
            d &= !2; // a block at the start level
        }
        d
    }

    fn ops(&self, cell: &Cell, ask: Ask) -> Vec<Op> {
        let op1 = [0, 0, 4, 6][cell.regime as usize];
        let on = (ask == Ask::List) as u64;
        let mut ops = vec![
            Op::Level(3),
            Op::Reg(key(3, op1, 2, 0, 2), self.tcr),
            Op::Reg(key(3, op1, 2, 0, cell.upper as u32), self.ttbr),
            Op::Reg(key(3, op1, 1, 0, 0), self.sctlr | on),
        ];
        match ask {
            Ask::Leaf => ops.push(Op::LeafWalk(cell.regime as u8, self.va)),
            Ask::List => ops.extend([
                Op::SetX(0, self.va),
                Op::Sys(op1, 7, 8, 0, 0),
                Op::Level(cell.regime),
                Op::Census(self.va.wrapping_sub(0x1000), 3),
                Op::Census(cell.end().wrapping_sub(0x1000), 2),
                Op::Translate(1, self.va),
            ]),
        }
        ops
    }
}

pub struct Grid<'a> {
    rust: RustCore,
    other: &'a mut dyn Core,
    ask: Ask,
    r: Rng,
    /// Granule and start level, and how often each answer came.
    pub seen: BTreeMap<String, BTreeMap<String, u64>>,
    pub walks: u64,
}

impl<'a> Grid<'a> {
    pub fn new(other: &'a mut dyn Core, ask: Ask) -> Grid<'a> {
        other.reset();
        Grid {
            rust: RustCore::new(),
            other,
            ask,
            r: Rng::new(99),
            seen: BTreeMap::new(),
            walks: 0,
        }
    }

    /// Each cell once; the error is the first difference.
    pub fn round(&mut self) -> Result<(), String> {
        for (regime, upper) in [(1, false), (1, true), (2, false), (3, false)] {
            for n in 0..64 * 4 * 8 {
                let (size, granule_code, output_code) = (n / 32, n / 8 % 4, n % 8);
                self.cell(&Cell {
                    regime,
                    upper,
                    size,
                    granule_code,
                    output_code,
                })?;
            }
            if self.ask == Ask::List && !upper {
                self.flat(regime)?;
            }
        }
        Ok(())
    }

    /// Stage 1 off: each setting of TBI, and addresses on both sides of 2^44 and of bit 55, with and without a tag.
    fn flat(&mut self, regime: u32) -> Result<(), String> {
        let op1 = [0, 0, 4, 6][regime as usize];
        let mut ram = Ram::of((1 << 44) - 8, vec![0; 16]);
        for tbi in [0, 1 << 20, 1 << 37, 1 << 38, 3 << 37] {
            for va in [0, 0x1000, (1 << 44) - 0x1000, (1 << 44) - 8, 1 << 44, 1 << 48, 1 << 55, 0xFF << 55, u64::MAX] {
                for va in [va, va ^ 0x5A << 56] {
                    let ops = [
                        Op::Level(3),
                        Op::Reg(key(3, op1, 2, 0, 2), tbi),
                        Op::Reg(key(3, op1, 1, 0, 0), 0),
                        Op::SetX(0, va),
                        Op::Sys(op1, 7, 8, 0, 0),
                        Op::Level(regime),
                        Op::Census(va, 1),
                        Op::Translate(1, va),
                        Op::Load(va, 8),
                        Op::Store(va, 8, tbi),
                        Op::Fetch(va),
                    ];
                    for op in ops {
                        self.ask_both(&op, &mut ram)
                            .map_err(|e| format!("regime {regime} off, TCR {tbi:x}: {e}"))?;
                    }
                }
            }
        }
        Ok(())
    }

    /// An operation by what ought to be done and by the other core: the answer, where both agree.
    fn ask_both(&mut self, op: &Op, ram: &mut Ram) -> Result<Ans, String> {
        let mut other_ram = ram.clone();
        let (x, _) = domain::feed(&Line::Op(*op), &mut self.rust, ram);
        let (x, y) = (x.expect("an operation's answer"), self.other.step(op, &mut other_ram));
        let reads = [self.rust.reads(), self.other.reads()];
        let moved = self.ask == Ask::List && !self.other.holds(&self.rust) || *ram != other_ram;
        if x != y || reads[0] != reads[1] || moved {
            let [a, b] = reads;
            return Err(format!("{op}: rust {x} rd={a:x}, other {y} rd={b:x}"));
        }
        Ok(x)
    }

    fn cell(&mut self, cell: &Cell) -> Result<(), String> {
        let mut walk = Walk::new(cell, &mut self.r);
        let mut last = Ans::None;
        let setting = format!(
            "regime {} upper {} TCR {:x} TTBR {:x} SCTLR {:x} window {:x}",
            cell.regime, cell.upper, walk.tcr, walk.ttbr, walk.sctlr, walk.ram.base
        );
        for op in walk.ops(cell, self.ask) {
            last = self
                .ask_both(&op, &mut walk.ram)
                .map_err(|e| format!("{setting} word {:x?}: {e}", &walk.ram.bytes[..]))?;
        }
        self.walks += 1;
        let class = match last {
            Ans::Leaf(_, _, l, ..) => format!("leaf {l}"),
            Ans::Fault(_, s) => format!("{s:02x}"),
            Ans::Val(_) => "val".into(),
            other => other.to_string(),
        };
        let head = format!(
            "granule {} KiB, start level {}",
            1 << (cell.granule() - 10),
            cell.start()
        );
        *self.seen.entry(head).or_default().entry(class).or_default() += 1;
        Ok(())
    }
}
