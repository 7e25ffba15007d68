//! Recorded answers: a trace in binary with what the Rust answers, for a program that has neither Rust nor strings.
//! `recorded/README.md` has the format and the definitions of the digests.
mod aborts;
mod bits;
pub mod files;
mod ranges;
pub mod replay;
mod short;
mod splits;
mod statuses;
mod tlbi;

use crate::cluster::{place, Cluster, Four, CORES};
use crate::compare::Step;
use crate::coverage::Event;
use crate::domain::{Judge, Reference};
use crate::ffi::{encode, encode_answer};
use crate::op::{Ans, Line, Op};
use crate::state::{Hash, PAR};
use crate::tally::Tally;
use crate::{feed, Core, Ram, State};
use std::collections::BTreeMap;

/// The first word of a file: the bytes "A72REC03".
pub const MAGIC: u64 = u64::from_le_bytes(*b"A72REC03");

/// The words of an operation's line: eight of the operation, four of the answer, the state after it, and last how many
/// descriptors it read.
const LINE: usize = 39;
const AFTER: usize = LINE - 8;
const STATE: usize = AFTER - 5;

/// The words of an operation's line where there are four cores: after the others a digest of each.
const LINE_OF_FOUR: usize = LINE + CORES;

/// What recorded traces show.
#[derive(Default)]
pub struct Shown {
    pub tally: Tally,
    /// By subject and case of it.
    pub names: BTreeMap<String, BTreeMap<String, u64>>,
}

/// The words about a core.
fn words_of(s: &State) -> [u64; STATE - 1] {
    let [l0, l1, l2, l3] = s.levels;
    [
        l0.hits,
        l0.walks,
        l1.hits,
        l1.walks,
        l2.hits,
        l2.walks,
        l3.hits,
        l3.walks,
        s.flushes,
        s.drops,
        s.epoch,
        s.broadcast.0.into(),
        s.broadcast.1,
        s.last_pa,
        s.abort_pa,
        s.level.into(),
        s.mark.into(),
        s.generation.into(),
        s.cache_asid.into(),
        s.regs[PAR],
        s.entries.len() as u64,
        s.hint_count() as u64,
        s.reg_digest(),
        s.entry_digest(),
        s.hint_digest(),
    ]
}

/// The words about the state after an operation: of the core that is spoken to, and of RAM. Where there is no such core the
/// former are 0.
fn summary(four: &dyn Cluster, ram: u64) -> [u64; STATE] {
    let core = place(four.number()).map_or([0; STATE - 1], |i| words_of(&four.nth(i)));
    let mut all = [ram; STATE];
    all[..STATE - 1].copy_from_slice(&core);
    all
}

/// A digest of each of the four.
fn digests(four: &dyn Cluster) -> [u64; CORES] {
    std::array::from_fn(|i| Hash::of(words_of(&four.nth(i))))
}

/// What a line has of the descriptors that this operation read; of a leaf's walk nothing.
fn reads_of(op: &Op, core: &dyn Core) -> u64 {
    if op.reports() {
        core.reads()
    } else {
        0
    }
}

struct Recorder<'a> {
    four: Four<Reference>,
    /// Whether a line names a core.
    several: bool,
    ram: Ram,
    words: Vec<u64>,
    operations: u64,
    /// Operations outside the Rust's domain.
    outside: u64,
    longest: u64,
    shown: &'a mut Shown,
}

impl Recorder<'_> {
    fn line(&mut self, line: &Line) {
        let before = self.four.state();
        let answer = feed(line, &mut self.four, &mut self.ram);
        let judge = self.four.judge();
        self.words.extend(encode(line));
        self.longest = self.longest.max(self.ram.bytes.len() as u64);
        let (Line::Op(op), Some(answer)) = (line, answer) else {
            return;
        };
        self.operations += 1;
        self.outside += (judge != Judge::Rust) as u64;
        self.words.extend(encode_answer(&answer));
        self.words.extend(summary(&self.four, self.ram.digest()));
        self.words.push(reads_of(op, &self.four));
        if self.several {
            self.words.extend(digests(&self.four));
        }
        self.show(op, &answer, &before, judge);
    }

    fn show(&mut self, op: &Op, answer: &Ans, before: &State, judge: Judge) {
        let (rust, ram) = (&self.four.spoken().rust, &self.ram);
        let cores = self.several.then_some((self.four.number(), self.four.shared));
        self.shown.tally.note(&Step {
            op,
            answer,
            before: (before.hits(), before.walks()),
            rust,
            judge,
            left_out: false,
            cores,
        });
        for (subject, case) in (Event {
            op,
            answer,
            before,
            after: rust,
            ram,
            judge,
            shared: self.four.shared,
        })
        .names()
        {
            *self
                .shown
                .names
                .entry(subject)
                .or_default()
                .entry(case)
                .or_default() += 1;
        }
    }
}

/// The file's bytes; what the trace shows is added to `shown`.
pub fn record(lines: &[Line], shown: &mut Shown) -> Vec<u8> {
    let mut r = Recorder {
        four: Four::default(),
        several: lines.iter().any(|line| matches!(line, Line::Core(_))),
        ram: Ram::default(),
        words: Vec::new(),
        operations: 0,
        outside: 0,
        longest: 0,
        shown,
    };
    lines.iter().for_each(|l| r.line(l));
    let all = 8 + r.words.len() as u64;
    let line = if r.several { LINE_OF_FOUR } else { LINE };
    let (lines, line) = (lines.len() as u64, line as u64);
    let header = [MAGIC, all, lines, r.operations, r.longest, 0, line, r.outside];
    header
        .into_iter()
        .chain(r.words)
        .flat_map(u64::to_le_bytes)
        .collect()
}
