//! What a trace shows beyond operations and their answers: the places where ports go wrong, by name.
use crate::census::ends;
use crate::domain::Judge;
use crate::op::{Ans, Op};
use crate::rust::RustCore;
use crate::{Core, Ram, State};
use pimu::aarch64::access;
use pimu::aarch64::Exception;

/// One operation with the states around it.
pub struct Event<'a> {
    pub op: &'a Op,
    pub answer: &'a Ans,
    pub before: &'a State,
    pub after: &'a RustCore,
    pub ram: &'a Ram,
    pub judge: Judge,
    /// What it handed on to the other cores.
    pub shared: Option<access::Inval>,
}

fn exception(e: &Exception) -> &'static str {
    match e {
        Exception::Undefined => "Undefined",
        Exception::Svc(_) => "SVC",
        Exception::Hvc(_) => "HVC",
        Exception::Smc(_) => "SMC",
        Exception::Brk(_) => "BRK",
        Exception::DataAbort { .. } => "data abort",
        Exception::InsnAbort { .. } => "instruction abort",
        Exception::PcAlignment => "PC alignment",
    }
}

/// All counters, those of each level first.
fn counters(s: &State) -> Vec<u64> {
    let levels = s.levels.iter().flat_map(|l| [l.hits, l.walks]);
    levels.chain([s.flushes, s.drops, s.epoch]).collect()
}

impl Event<'_> {
    /// What this operation shows: a subject and a case of it.
    pub fn names(&self) -> Vec<(String, String)> {
        if matches!(self.answer, Ans::Number(_)) {
            return Vec::new();
        }
        let mut names = self.by_operation();
        if let Some((va, size)) = self.reach() {
            names.extend(self.by_address(va, size));
        }
        names.extend(self.by_level());
        if let Some(what) = self.shared {
            let what = match what {
                access::Inval::All => "All",
                access::Inval::Page(_) => "Page",
                access::Inval::Asid(_) => "Asid",
            };
            names.push(("handed on to the other cores".into(), what.into()));
        }
        if self.op.reports() {
            names.push(("descriptors read".into(), self.after.reads().to_string()));
        }
        names.extend(
            self.by_state()
                .into_iter()
                .map(|(subject, case)| (subject.into(), case.into())),
        );
        names
    }

    fn by_operation(&self) -> Vec<(String, String)> {
        let (from, to) = (self.before.level, self.after.cpu.el);
        match self.op {
            Op::Census(..) => self.by_counts(),
            _ if *self.answer != Ans::Ok => Vec::new(),
            Op::Sys(op1, 8, crm, op2, _) => vec![(format!("TLBI op1 {op1} CRm {crm}"), format!("op2 {op2}"))],
            Op::Sys(op1, 7, 8, op2, _) => vec![(format!("AT op1 {op1}"), format!("op2 {op2}"))],
            Op::Abort(e) => vec![(
                format!("entry of {}", exception(e)),
                format!("EL{from} to EL{to}"),
            )],
            _ => Vec::new(),
        }
    }

    /// At which level hits and walks were counted.
    fn by_level(&self) -> Vec<(String, String)> {
        let (s, t) = (self.before, self.after.state());
        if !self.op.is_step() {
            return Vec::new();
        }
        let marked = if s.mark && s.level == 1 {
            " while unprivileged"
        } else {
            ""
        };
        let mut names = Vec::new();
        for (level, (was, is)) in s.levels.iter().zip(t.levels).enumerate() {
            for (what, moved) in [("hits", is.hits != was.hits), ("walks", is.walks != was.walks)] {
                if moved {
                    names.push((format!("counted at EL{level}"), format!("{what}{marked}")));
                }
            }
        }
        names
    }

    /// How the pages of a census end.
    fn by_counts(&self) -> Vec<(String, String)> {
        let Ans::Counts(counts) = self.answer else {
            return Vec::new();
        };
        ends(counts)
            .map(|(end, _)| ("pages of a census".into(), end.to_string()))
            .collect()
    }

    /// The address and size of an access or a translation.
    fn reach(&self) -> Option<(u64, u64)> {
        match *self.op {
            Op::Translate(_, va) | Op::DataPa(va) | Op::FetchPa(va) => Some((va, 1)),
            Op::Fetch(va) => Some((va, 4)),
            Op::Load(va, n) | Op::Store(va, n, _) => Some((va, n.into())),
            _ => None,
        }
    }

    fn by_address(&self, va: u64, size: u64) -> Vec<(String, String)> {
        let mut names = Vec::new();
        let on = self.after.stage1_on();
        let bare = access::mmu::untagged(&self.after.cpu, self.before.level.max(1) as u8, va);
        if on && bare != va && matches!(self.answer, Ans::Val(_) | Ans::Ok) {
            names.push(("tagged address".into(), "carried out".into()));
        }
        let data = matches!(self.op, Op::Load(..) | Op::Store(..));
        if on && data && size <= 8 && (va & 0xFFF) + size > 0x1000 {
            names.extend(self.by_split(va, size));
        }
        let cut = self.after.state().abort_pa;
        let outside = matches!(self.answer, Ans::Data(_, _, 0x10) | Ans::Insn(_, 0x10));
        if outside && self.ram.get(cut & !0xFFF, 1).is_some() != self.ram.get(cut | 0xFFF, 1).is_some() {
            names.push(("external abort".into(), "in a page that the window cuts".into()));
        }
        names
    }

    fn by_split(&self, va: u64, size: u64) -> Vec<(String, String)> {
        let what = if matches!(self.op, Op::Load(..)) {
            "split load"
        } else {
            "split store"
        };
        let next = (va & !0xFFF).wrapping_add(0x1000);
        let end = match *self.answer {
            _ if matches!(self.judge, Judge::Crossing(_)) => {
                "external abort before a fault on the second page"
            }
            Ans::Data(a, _, s) if s != 0x10 && a == next => "fault on the second page",
            Ans::Data(_, _, s) if s != 0x10 => "fault on the first page",
            Ans::Data(a, ..) if a >= next || va.checked_add(size - 1).is_none() && a < va => {
                "external abort on the second page"
            }
            Ans::Data(..) => "external abort on the first page",
            _ => "carried out",
        };
        let place = if va.checked_add(size - 1).is_none() {
            " across 2^64"
        } else {
            ""
        };
        vec![(format!("{what}{place}"), end.into())]
    }

    fn by_state(&self) -> Vec<(&'static str, &'static str)> {
        let (s, t) = (self.before, self.after.state());
        let flushed = t.flushes != s.flushes;
        let bare = s.hint_count() > 0 && t.hint_count() == 0 && !t.entries.is_empty();
        let shown = [
            (
                t.cache_asid != s.cache_asid,
                ("register write", "changes the ASID"),
            ),
            (self.is_write() && flushed, ("register write", "flushes")),
            (self.is_write() && !flushed, ("register write", "flushes nothing")),
            (s.broadcast.0 == 0 && t.broadcast.0 != 0, ("broadcast", "first")),
            (
                s.broadcast.0 > 1 && t.broadcast.0 == 1,
                ("broadcast", "becomes All"),
            ),
            (
                t.drops != s.drops && t.entries.len() < s.entries.len(),
                ("cache", "entries dropped by Page"),
            ),
            (bare, ("cache", "hints gone, entries kept")),
            (
                flushed && t.generation < s.generation,
                ("wrap", "of the generation"),
            ),
            (self.wraps(&t), ("wrap", "of a counter")),
            (self.sum_wraps(&t), ("wrap", "of a sum over the levels")),
            (
                s.mark && s.level == 1 && self.reach().is_some(),
                ("access", "while unprivileged"),
            ),
        ];
        shown
            .into_iter()
            .filter(|(is, _)| *is)
            .map(|(_, name)| name)
            .collect()
    }

    fn is_write(&self) -> bool {
        matches!(self.op, Op::Reg(..)) && *self.answer == Ans::Ok
    }

    fn wraps(&self, t: &State) -> bool {
        let mut pairs = counters(self.before).into_iter().zip(counters(t));
        self.op.is_step() && pairs.any(|(was, is)| is < was)
    }

    fn sum_wraps(&self, t: &State) -> bool {
        let s = self.before;
        self.op.is_step() && (t.hits() < s.hits() || t.walks() < s.walks())
    }
}
