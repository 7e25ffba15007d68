//! How often each operation gave each kind of answer.
use crate::cluster::place;
use crate::compare::Step;
use crate::domain::Judge;
use crate::op::{Ans, Op};
use crate::Core;
use pimu::aarch64::access::cpu::unprivileged;
use pimu::aarch64::access::Inval;
use std::fmt::{self, Display, Formatter};

/// The kinds of operations, in the order of their names.
const KINDS: [&str; 24] = [
    "abort",
    "census",
    "dpa",
    "flip",
    "fpa",
    "if",
    "l-walk",
    "ld",
    "leaf",
    "level",
    "mark",
    "other",
    "poke",
    "reg",
    "st",
    "sys AT",
    "sys DC ZVA",
    "sys TLBI",
    "sys other",
    "tr fetch",
    "tr read",
    "tr write",
    "win",
    "x",
];

/// The kinds of answers: those without a number, then numbers, levels of leaves, five times 256 statuses, and bits.
const PLAIN: [&str; 9] = [
    "ok",
    "val",
    "none",
    "pair",
    "undefined",
    "unimplemented",
    "panic",
    "PAR ok",
    "counts",
];
const NUMBERS: usize = PLAIN.len();
const LEAVES: usize = NUMBERS + 10;
const STATUSES: usize = LEAVES + 4;
const BITS: usize = STATUSES + 5 * 256;
const CLASSES: usize = BITS + 64;
const STATUS: [&str; 5] = ["fault", "data", "insn", "PAR", "page"];

pub struct Tally {
    counts: Vec<[u64; CLASSES]>,
    /// Of the operations outside the Rust's domain, which the second model judged; they are in no other number.
    by_model: Vec<[u64; CLASSES]>,
    /// Of the crossing accesses of which the first page's byte outside RAM comes before the second page's fault; they
    /// are in no other number.
    by_order: Vec<[u64; CLASSES]>,
    /// Of a core that there is not; they are in no other number.
    by_contract: Vec<[u64; CLASSES]>,
    /// Operations of each of four cores, and how often an All, a Page and an ASID were handed on; they are in the numbers
    /// above, too.
    pub by_core: [u64; 4],
    pub shared: [u64; 3],
    /// Translations answered by a walk, an entry, a hint, or flat.
    via: [u64; 4],
    /// Operations that counted hits and those that counted walks, by level; last those at EL1 while unprivileged, which
    /// are in no other pair.
    by_level: [[u64; 2]; 5],
    /// Operations that report how many descriptors they read, by that number; the last place has all larger ones.
    by_reads: [u64; 10],
    pub operations: u64,
    /// Operations that the other core has not; they are in no other number.
    pub left_out: u64,
}

impl Default for Tally {
    fn default() -> Tally {
        Tally {
            counts: vec![[0; CLASSES]; KINDS.len()],
            by_model: vec![[0; CLASSES]; KINDS.len()],
            by_order: vec![[0; CLASSES]; KINDS.len()],
            by_contract: vec![[0; CLASSES]; KINDS.len()],
            by_core: [0; 4],
            shared: [0; 3],
            via: [0; 4],
            by_level: [[0; 2]; 5],
            by_reads: [0; 10],
            operations: 0,
            left_out: 0,
        }
    }
}

/// The place of an operation's kind.
fn kind(op: &Op) -> usize {
    match op {
        Op::Abort(_) => 0,
        Op::Census(..) => 1,
        Op::DataPa(_) => 2,
        Op::Flip(..) => 3,
        Op::FetchPa(_) => 4,
        Op::Fetch(_) => 5,
        Op::LeafWalk(..) => 6,
        Op::Load(..) => 7,
        Op::Level(_) => 9,
        Op::Mark(_) => 10,
        Op::Reg(..) => 13,
        Op::Store(..) => 14,
        Op::Sys(3, 7, 4, 1, _) => 16,
        Op::Sys(_, 7, 8, _, _) => AT,
        Op::Sys(_, 8, _, _, _) => 17,
        Op::Sys(..) => 18,
        Op::Translate(1, _) => 20,
        Op::Translate(2, _) => 21,
        Op::Translate(..) => 19,
        Op::Windows => 22,
        Op::SetX(..) => 23,
        op if op.is_step() => 11,
        op if op.is_poke() => 12,
        _ => 8,
    }
}

const AT: usize = 15;

fn status(which: usize, s: u8) -> usize {
    STATUSES + 256 * which + usize::from(s)
}

/// The place of the answer's kind, with its status; of an AT that was carried out, PAR's.
fn class(step: &Step) -> usize {
    match *step.answer {
        Ans::Ok if kind(step.op) == AT => match step.rust.par() {
            p if p & 1 != 0 => status(3, (p >> 1 & 0x3F) as u8),
            _ => 7,
        },
        Ans::Ok => 0,
        Ans::Val(_) => 1,
        Ans::None => 2,
        Ans::Pair(..) => 3,
        Ans::Undefined => 4,
        Ans::Unimplemented => 5,
        Ans::Panic => 6,
        Ans::Counts(_) => 8,
        Ans::Number(n) => NUMBERS + usize::from(n % 10),
        Ans::Leaf(_, _, l, ..) => LEAVES + usize::from(l % 4),
        Ans::Fault(_, s) => status(0, s),
        Ans::Data(_, _, s) => status(1, s),
        Ans::Insn(_, s) => status(2, s),
        Ans::Page(_, _, s) => status(4, s),
        Ans::Bit(_, b) => BITS + usize::from(b % 64),
    }
}

fn class_name(place: usize) -> String {
    match place {
        p if p < NUMBERS => PLAIN[p].into(),
        p if p < LEAVES => format!("no {}", p - NUMBERS),
        p if p < STATUSES => format!("leaf {}", p - LEAVES),
        p if p >= BITS => format!("bit {}", p - BITS),
        p => format!("{} {:02x}", STATUS[(p - STATUSES) / 256], (p - STATUSES) % 256),
    }
}

impl Tally {
    pub fn note(&mut self, step: &Step) {
        if step.left_out {
            self.left_out += 1;
            return;
        }
        let counts = match step.judge {
            Judge::Rust => &mut self.counts,
            Judge::Model => &mut self.by_model,
            Judge::Crossing(_) => &mut self.by_order,
            Judge::Contract => &mut self.by_contract,
        };
        counts[kind(step.op)][class(step)] += 1;
        self.note_cores(step);
        if step.op.reports() && step.judge != Judge::Contract {
            self.by_reads[step.rust.reads().min(9) as usize] += 1;
        }
        if step.judge != Judge::Rust {
            return;
        }
        self.operations += 1;
        self.note_level(step);
        if let (Op::Translate(..), Ans::Val(_)) = (step.op, step.answer) {
            let t = &step.rust.cpu.tlb;
            let source = match step.before {
                (_, walks) if t.walks != walks => 0,
                (hits, _) if t.hits != hits => 1,
                _ if step.rust.stage1_on() => 2,
                _ => 3,
            };
            self.via[source] += 1;
        }
    }

    fn note_cores(&mut self, step: &Step) {
        let Some((number, shared)) = step.cores else { return };
        if let Some(i) = place(number) {
            self.by_core[i] += 1;
        }
        match shared {
            Some(Inval::All) => self.shared[0] += 1,
            Some(Inval::Page(_)) => self.shared[1] += 1,
            Some(Inval::Asid(_)) => self.shared[2] += 1,
            None => {}
        }
    }

    fn note_level(&mut self, step: &Step) {
        let (c, (hits, walks)) = (&step.rust.cpu, step.before);
        let moved = [c.tlb.hits != hits, c.tlb.walks != walks];
        if !step.op.is_step() || moved == [false; 2] {
            return;
        }
        let place = match c.el {
            1 if unprivileged(c) => 4,
            level => level as usize,
        };
        for (n, moved) in self.by_level[place].iter_mut().zip(moved) {
            *n += u64::from(moved);
        }
    }

    /// Another tally's numbers, too.
    pub fn add(&mut self, other: &Tally) {
        let mine = [&mut self.counts, &mut self.by_model, &mut self.by_order, &mut self.by_contract];
        let theirs = [&other.counts, &other.by_model, &other.by_order, &other.by_contract];
        for (mine, theirs) in mine.into_iter().flatten().zip(theirs.into_iter().flatten()) {
            mine.iter_mut().zip(theirs).for_each(|(a, b)| *a += b);
        }
        self.by_core.iter_mut().zip(other.by_core).for_each(|(a, b)| *a += b);
        self.shared.iter_mut().zip(other.shared).for_each(|(a, b)| *a += b);
        self.via.iter_mut().zip(other.via).for_each(|(a, b)| *a += b);
        let levels = self.by_level.iter_mut().flatten();
        levels
            .zip(other.by_level.iter().flatten())
            .for_each(|(a, b)| *a += b);
        self.by_reads.iter_mut().zip(other.by_reads).for_each(|(a, b)| *a += b);
        self.operations += other.operations;
        self.left_out += other.left_out;
    }

    /// How many operations the second model judged.
    pub fn by_model(&self) -> u64 {
        self.by_model.iter().flatten().sum()
    }

    /// How many crossing accesses went by the order of the two pages' faults.
    pub fn by_order(&self) -> u64 {
        self.by_order.iter().flatten().sum()
    }

    /// How many operations were of a core that there is not.
    pub fn by_contract(&self) -> u64 {
        self.by_contract.iter().flatten().sum()
    }

    /// Rows of operation, number, and answers with their numbers, by name.
    pub fn rows(&self) -> impl Iterator<Item = (&'static str, u64, String)> + '_ {
        Tally::rows_of(&self.counts)
    }

    /// The same of the operations outside the Rust's domain, each with what judged it.
    pub fn rows_outside(&self) -> impl Iterator<Item = (&'static str, &'static str, u64, String)> + '_ {
        let judged = [
            ("by the second model", &self.by_model),
            ("by the order of faults", &self.by_order),
            ("by the contract", &self.by_contract),
        ];
        judged.into_iter().flat_map(|(by, counts)| {
            Tally::rows_of(counts).map(move |(kind, n, answers)| (kind, by, n, answers))
        })
    }

    fn rows_of(counts: &[[u64; CLASSES]]) -> impl Iterator<Item = (&'static str, u64, String)> + '_ {
        let seen = KINDS.iter().zip(counts);
        seen.filter(|(_, row)| row.iter().any(|n| *n != 0))
            .map(|(kind, row)| {
                let some = row.iter().enumerate().filter(|(_, n)| **n != 0);
                let mut parts: Vec<String> = some.map(|(p, n)| format!("{}: {n}", class_name(p))).collect();
                parts.sort();
                (*kind, row.iter().sum(), parts.join(", "))
            })
    }

    pub fn sources(&self) -> String {
        let [walk, entry, hint, flat] = self.via;
        format!("translations answered by walk {walk}, entry {entry}, hint {hint}, flat {flat}")
    }
}

impl Tally {
    /// How many operations read how many descriptors.
    pub fn reads(&self) -> String {
        let seen = (0..).zip(self.by_reads).filter(|(_, n)| *n != 0);
        let parts: Vec<String> = seen.map(|(reads, n)| format!("{reads}: {n}")).collect();
        format!("operations by descriptors read {}", parts.join(", "))
    }

    /// How many operations were of which core, and what was handed on; of one core alone nothing.
    pub fn cores(&self) -> Option<String> {
        let [zero, one, two, three] = self.by_core;
        let [all, page, asid] = self.shared;
        let said = || {
            format!(
                "operations of four cores: {zero}, {one}, {two}, {three}; handed on: All {all}, Page {page}, Asid {asid}"
            )
        };
        (self.by_core != [0; 4]).then(said)
    }

    /// How many operations counted hits and walks at each level.
    pub fn levels(&self) -> String {
        let names = ["EL0", "EL1", "EL2", "EL3", "EL1 while unprivileged"];
        let pairs = names.iter().zip(self.by_level);
        let parts: Vec<String> = pairs
            .map(|(name, [hits, walks])| format!("{name} {hits} and {walks}"))
            .collect();
        format!("operations that counted hits and walks: {}", parts.join(", "))
    }
}

impl Display for Tally {
    fn fmt(&self, f: &mut Formatter) -> fmt::Result {
        for (kind, n, answers) in self.rows() {
            writeln!(f, "{kind:10} {n:8}  {answers}")?;
        }
        for (kind, by, n, answers) in self.rows_outside() {
            writeln!(f, "{kind:10} {n:8}  {answers}; {by}")?;
        }
        writeln!(f, "{}", self.sources())?;
        writeln!(f, "{}", self.levels())?;
        writeln!(f, "{}", self.reads())?;
        if let Some(cores) = self.cores() {
            writeln!(f, "{cores}")?;
        }
        if self.left_out != 0 {
            writeln!(
                f,
                "left out: {} leaves, which the other core has not",
                self.left_out
            )?;
        }
        Ok(())
    }
}
