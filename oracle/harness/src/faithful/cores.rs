//! The same of four cores. Each has a past of its own: the walks that it made, less those that an invalidation of its own
//! covers, or one that another core shares, a TLBI with CRm 3. What another core shares is read from the call and from the
//! registers of that core alone. What another stores is RAM that changed.
use super::past::Past;
use super::{stands, Seen, Trial};
use crate::cluster::{place, Cluster, CORES, NO_CORE};
use crate::model::{DocCore, Inval};
use crate::op::{Line, Op};
use crate::{feed, refusal, rust, Ram};

struct Trials<'a> {
    /// That of the core that is spoken to.
    trial: Trial<'a>,
    /// Those of the others; in the place of the one that is spoken to stands nothing.
    others: [(DocCore, Past); CORES],
    at: usize,
}

impl Trials<'_> {
    fn turn(&mut self, i: usize) {
        let own = &mut self.trial;
        for k in [self.at, i] {
            let other = &mut self.others[k];
            std::mem::swap(&mut own.bare, &mut other.0);
            std::mem::swap(&mut own.past, &mut other.1);
        }
        self.at = i;
    }

    fn fresh(&mut self) {
        for (bare, past) in &mut self.others {
            *bare = DocCore::new();
            past.clear();
        }
    }

    /// What the operation shares with the other cores.
    fn shared(&self, op: &Op, ram: &Ram) -> Option<Inval> {
        let level = self.trial.bare.regs.level;
        match op {
            Op::Sys(_, 8, 3, ..) if refusal(op, level, ram, rust::kept).is_none() => {
                self.trial.invalidation(op)
            }
            _ => None,
        }
    }

    /// What another core hears.
    fn hear(&mut self, what: Inval, four: &dyn Cluster) -> Result<(), String> {
        for k in (0..CORES).filter(|k| *k != self.at) {
            let (bare, past) = &mut self.others[k];
            past.cover(what);
            self.trial.seen.heard += 1;
            stands(&four.nth(k), bare, past).map_err(|e| format!("core {k}: {e}"))?;
        }
        Ok(())
    }

    /// Every core is as it was.
    fn nobody(&self, line: &Line, four: &mut dyn Cluster, ram: &mut Ram) -> Result<(), String> {
        let all = |four: &dyn Cluster| (0..CORES).map(|k| four.nth(k)).collect::<Vec<_>>();
        let before = (all(four), ram.clone());
        let answer = feed(line, four, ram);
        if matches!(line, Line::Op(_)) && answer != Some(NO_CORE) {
            return Err("there is no such core".into());
        }
        let moved = matches!(line, Line::Op(_)) && before != (all(four), ram.clone());
        match moved {
            true => Err("of no core something moved".into()),
            false => Ok(()),
        }
    }

    fn line(&mut self, line: &Line, four: &mut dyn Cluster, ram: &mut Ram) -> Result<(), String> {
        match (line, place(four.number())) {
            (Line::Core(n), _) => {
                feed(line, four, ram);
                place(*n).into_iter().for_each(|i| self.turn(i));
                Ok(())
            }
            (Line::Op(_), None) => self.nobody(line, four, ram),
            (Line::Op(op), Some(_)) => {
                let shared = self.shared(op, ram);
                self.trial.step(line, four, ram)?;
                shared.map_or(Ok(()), |what| self.hear(what, four))
            }
            (Line::Fresh, _) => {
                self.fresh();
                self.trial.step(line, four, ram)
            }
            _ => {
                feed(line, four, ram);
                Ok(())
            }
        }
    }
}

/// Test one list of four cores, whose first line names one; the error says where and why faithfulness or the invariant
/// broke.
pub fn hold_cores(lines: &[Line], four: &mut dyn Cluster, seen: &mut Seen) -> Result<(), String> {
    four.restart();
    let mut ram = Ram::default();
    let mut trials = Trials {
        trial: Trial {
            bare: DocCore::new(),
            past: Past::default(),
            line: 0,
            reads: 0,
            seen,
        },
        others: Default::default(),
        at: 0,
    };
    for (i, line) in lines.iter().enumerate() {
        trials.trial.line = i + 1;
        trials
            .line(line, four, &mut ram)
            .map_err(|e| format!("line {}: core {:x}: {line}: {e}", i + 1, four.number()))?;
    }
    let (at, trial) = (trials.at, &trials.trial);
    stands(&four.nth(at), &trial.bare, &trial.past).map_err(|e| format!("at the end: core {at}: {e}"))?;
    for k in (0..CORES).filter(|k| *k != at) {
        let (bare, past) = &trials.others[k];
        stands(&four.nth(k), bare, past).map_err(|e| format!("at the end: core {k}: {e}"))?;
    }
    Ok(())
}
