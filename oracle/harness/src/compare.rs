//! Two cores side by side, the Rust and another: answer, descriptors read, whole state and RAM after every operation.
//! What leaves the Rust's domain goes as [`domain`] has it.
use crate::domain::{self, Judge};
use crate::op::{Ans, Line, Op};
use crate::rust::RustCore;
use crate::{feed, Core, Ram, State};
use pimu::aarch64::access::Inval;

/// An operation that the Rust, or what stands in its place, has just carried out.
pub struct Step<'a> {
    pub op: &'a Op,
    pub answer: &'a Ans,
    /// Before the operation: hits and walks, to see where its answer came from.
    pub before: (u64, u64),
    pub rust: &'a RustCore,
    pub judge: Judge,
    /// The other core has no such operation, so nothing was compared.
    pub left_out: bool,
    /// Of four cores the number that was spoken to, and what was handed on.
    pub cores: Option<(u64, Option<Inval>)>,
}

pub struct Difference {
    /// The place of the line in the trace, from 0.
    pub at: usize,
    pub report: String,
}

pub(crate) struct Side {
    answer: Option<Ans>,
    reads: u64,
    state: State,
    ram: Ram,
}

impl Side {
    pub fn of(answer: Option<Ans>, reads: u64, state: State, ram: &Ram) -> Side {
        Side {
            answer,
            reads,
            state,
            ram: ram.clone(),
        }
    }

    fn line(&self) -> String {
        let answer = self.answer.as_ref().map_or("-".into(), |a| a.to_string());
        format!("{answer} rd={:x} | {}", self.reads, self.state.line(self.ram.digest()))
    }

    fn full(&self) -> String {
        let answer = self.answer.as_ref().map_or(String::new(), Ans::full);
        self.state.full() + &answer
    }
}

pub(crate) fn report(line: &Line, rust: &Side, other: &Side) -> String {
    format!(
        "{line}\n rust  {}\n other {}\nrust {}other {}",
        rust.line(),
        other.line(),
        rust.full(),
        other.full()
    )
}

/// Feed the lines to fresh cores; the first difference, if any. `watch` sees each operation of the Rust.
pub fn compare(lines: &[Line], other: &mut dyn Core, mut watch: impl FnMut(Step)) -> Option<Difference> {
    let mut rust = RustCore::new();
    other.reset();
    let mut ram = Ram::default();
    let mut other_ram = if other.seals() {
        Ram::sealable()
    } else {
        Ram::default()
    };
    for (at, line) in lines.iter().enumerate() {
        let before = (rust.cpu.tlb.hits, rust.cpu.tlb.walks);
        let writes = ram.writes;
        let (x, judge) = domain::feed(line, &mut rust, &mut ram);
        let y = feed(line, other, &mut other_ram);
        let (Line::Op(op), Some(answer)) = (line, &x) else {
            continue;
        };
        watch(Step {
            op,
            answer,
            before,
            rust: &rust,
            judge,
            left_out: y.is_none(),
            cores: None,
        });
        if y.is_none() {
            continue;
        }
        // Where the Rust wrote nothing and the other could not have, RAM is as it was.
        let unwritten = other.seals() && !op.may_write_ram() && ram.writes == writes;
        let same = x == y && rust.reads() == other.reads();
        if !same || !other.holds(&rust) || !unwritten && ram != other_ram {
            let (a, b) = (
                Side::of(x, rust.reads(), rust.state(), &ram),
                Side::of(y, other.reads(), other.state(), &other_ram),
            );
            return Some(Difference {
                at,
                report: report(line, &a, &b),
            });
        }
    }
    None
}
