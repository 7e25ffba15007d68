//! Four cores of the model over one RAM, written from the contract's words. They can make the mistakes of a cluster.
use super::registers::kept;
use super::{Bank, DocCore, Inval, Mistake};
use crate::cluster::{place, Cluster, CORES, NO_CORE};
use crate::op::{Ans, Op};
use crate::wild::Part;
use crate::{refusal, Core, Ram, State};

#[derive(Clone, Default)]
pub struct DocFour {
    cores: [DocCore; CORES],
    number: u64,
    /// Whether there are four: a trace begins with one core.
    several: bool,
    mistake: Option<Mistake>,
    /// What each has still to hear, with a mistake.
    late: [Vec<Inval>; CORES],
}

impl DocFour {
    pub fn with_mistake(mistake: Option<Mistake>) -> DocFour {
        DocFour {
            cores: [(); CORES].map(|()| DocCore::with_mistake(mistake)),
            mistake,
            ..DocFour::default()
        }
    }

    fn makes(&self, m: Mistake) -> bool {
        self.mistake == Some(m)
    }

    /// The core's place, or the number of a check.
    fn place(&self, op: &Op, ram: &Ram) -> Result<usize, Ans> {
        let n = self.number;
        if let Some(i) = place(n) {
            return Ok(i);
        }
        match self.mistake {
            Some(Mistake::CoresModulo) => return Ok((n % 4) as usize),
            Some(Mistake::CoresLowWord) if n as u32 <= 3 => return Ok(n as u32 as usize),
            _ => {}
        }
        let first = refusal(op, self.cores[0].regs.level, ram, kept);
        Err(match (self.mistake, first) {
            (Some(Mistake::CoresAfterLevel), Some(1)) => Ans::Number(1),
            (Some(Mistake::CoresAfterWindow), Some(n @ (1 | 2))) => Ans::Number(n),
            (Some(Mistake::CoresAfterAll), Some(n)) => Ans::Number(n),
            _ => NO_CORE,
        })
    }

    /// Whether what is pending after the operation goes to the others.
    fn hands_on(&self, op: &Op, answer: &Ans) -> bool {
        use Mistake::*;
        let is = |m, case| self.makes(m) && case;
        let refused = matches!(answer, Ans::Number(_) | Ans::Page(..));
        let fault = matches!(answer, Ans::Fault(..) | Ans::Data(..) | Ans::Insn(..));
        let keeps = is(CoresFaultKeeps, fault)
            || is(CoresLooksKeep, op.looks())
            || is(CoresTlbiAlone, !matches!(op, Op::Sys(_, 8, ..)));
        let eager = is(CoresRefusedHandsOn, refused)
            || is(CoresPageHandsOn, matches!(answer, Ans::Page(..)))
            || is(CoresUndefinedHandsOn, *answer == Ans::Undefined)
            || is(CoresUnimplementedHandsOn, *answer == Ans::Unimplemented);
        self.several && op.is_step() && (eager || !answer.refuses() && !keeps)
    }

    /// With a mistake a TLBI is pending that should not be.
    fn broadcast_too(&mut self, i: usize, op: &Op) {
        let Op::Sys(op1, 8, crm, op2, rt) = *op else {
            return;
        };
        let too = self.makes(Mistake::CoresCrm7) && crm == 7 || self.makes(Mistake::CoresEveryTlbi);
        if too {
            let what = self.cores[i].tlbi(op1, crm, op2, rt);
            self.cores[i].tell_others(what);
        }
    }

    fn deliver(&mut self, i: usize) {
        let Some(what) = self.cores[i].broadcast else {
            return;
        };
        if !self.makes(Mistake::CoresMarkKept) {
            self.cores[i].broadcast = None;
        }
        for k in 0..CORES {
            let deaf = match self.mistake {
                Some(Mistake::CoresCallerHears) => false,
                Some(Mistake::CoresLastDeaf) => k == i || k == 3,
                Some(Mistake::CoresNextAlone) => k != (i + 1) % 4,
                _ => k == i,
            };
            if self.makes(Mistake::CoresLate) && !deaf {
                self.late[k].push(what);
            } else if !deaf {
                self.hear(k, what);
            }
        }
    }

    /// What a core hears, with a mistake.
    fn misheard(&self, k: usize, what: Inval) -> Inval {
        let tcr = self.cores[k].regs.get(Bank::Tcr, 1);
        let small = tcr >> 14 & 3 == 0 && tcr >> 30 & 3 == 2;
        match (self.mistake, what) {
            (Some(Mistake::CoresPageIsAll), Inval::Page(_)) => Inval::All,
            (Some(Mistake::CoresOwnGranule), Inval::Page(_)) if !small => Inval::All,
            (Some(Mistake::CoresOwnAsidSize), Inval::Asid(a)) if tcr >> 36 & 1 == 0 => Inval::Asid(a & 0xFF),
            _ => what,
        }
    }

    fn hear(&mut self, k: usize, what: Inval) {
        let what = self.misheard(k, what);
        let core = &mut self.cores[k];
        let before = core.clone();
        core.invalidate(what);
        match self.mistake {
            Some(Mistake::CoresHintsAlone) => {
                *core = before;
                core.forget_hints(false);
            }
            Some(Mistake::CoresHintsKept) => (core.hints, core.fetch) = (before.hints, before.fetch),
            Some(Mistake::CoresEpochStill) => core.epoch = before.epoch,
            Some(Mistake::CoresFlushesStill) => core.flushes = before.flushes,
            Some(Mistake::CoresDropsStill) => core.drops = before.drops,
            Some(Mistake::CoresHeardTwice) => core.invalidate(what),
            Some(Mistake::CoresPassedOn) => core.tell_others(what),
            _ => {}
        }
    }

    /// The core that is spoken to; where there is none, core 0.
    fn spoken(&self) -> &DocCore {
        &self.cores[place(self.number).unwrap_or(0)]
    }
}

impl Core for DocFour {
    fn reset(&mut self) {
        self.cores.iter_mut().for_each(Core::reset);
        self.late.iter_mut().for_each(Vec::clear);
    }

    fn restart(&mut self) {
        *self = DocFour::with_mistake(self.mistake);
    }

    fn turn(&mut self, core: u64) {
        (self.number, self.several) = (core, true);
    }

    fn step(&mut self, op: &Op, ram: &mut Ram) -> Ans {
        let i = match self.place(op, ram) {
            Ok(i) => i,
            Err(number) => return number,
        };
        for what in std::mem::take(&mut self.late[i]) {
            self.hear(i, what);
        }
        let answer = self.cores[i].step(op, ram);
        if answer == Ans::Ok {
            self.broadcast_too(i, op);
        }
        if self.hands_on(op, &answer) {
            self.deliver(i);
        }
        answer
    }

    fn reads(&self) -> u64 {
        place(self.number).map_or(0, |i| self.cores[i].reads())
    }

    fn state(&self) -> State {
        self.spoken().state()
    }

    fn load(&mut self, state: &State) {
        if let Some(i) = place(self.number) {
            self.cores[i].load(state);
        }
    }

    fn put(&mut self, part: &Part) {
        let Some(i) = place(self.number) else { return };
        self.cores[i].put(part);
        if self.makes(Mistake::CoresPutClean) {
            self.cores[i].broadcast = None;
        }
    }

    fn copy(&self) -> Box<dyn Core> {
        Box::new(self.clone())
    }
}

impl Cluster for DocFour {
    fn number(&self) -> u64 {
        self.number
    }

    fn is_several(&self) -> bool {
        self.several
    }

    fn nth(&self, i: usize) -> State {
        self.cores[i].state()
    }
}
