//! The first bit of RAM whose flip changes an answer.
use super::{DocCore, Mistake};
use crate::op::Ans;
use crate::Ram;

/// What is asked: the regime, the kind and whether EL0's rights count; and the address.
#[derive(Clone, Copy)]
struct Ask {
    what: (u32, u8, bool),
    va: u64,
}

/// Bits of a word in the order in which they are tried.
fn tried(core: &DocCore) -> Vec<u8> {
    let all = 0..64u8;
    if core.makes(Mistake::FlipBit1Untried) {
        vec![0]
    } else if core.makes(Mistake::FlipHighestBit) {
        all.rev().collect()
    } else if core.makes(Mistake::FlipBytesDown) || core.makes(Mistake::FlipBigEndian) {
        all.map(|b| b ^ 56).collect()
    } else {
        all.collect()
    }
}

impl DocCore {
    /// The answer where each read of the word at an address gives its value with one bit the other way.
    fn answer_with(&self, ram: &Ram, ask: Ask, at: u64, bit: u8) -> Result<u64, u8> {
        let other = |d: u64| match 1 << bit {
            m if self.makes(Mistake::FlipOnlyClears) => d & !m,
            m if self.makes(Mistake::FlipOnlySets) => d | m,
            m => d ^ m,
        };
        let read = |a: u64| ram.get(a, 8).map(|d| if a == at { other(d) } else { d });
        self.regs.fresh_answer(ask.what, ask.va, read)
    }

    /// The descriptors of the walk in order, each at its first place.
    fn descriptors(&self, ram: &Ram, ask: Ask) -> Vec<u64> {
        let regime = ask.what.0;
        let mut all = Vec::new();
        if self.regs.on(regime) || self.makes(Mistake::FlipOffWalks) {
            let bare = if self.makes(Mistake::FlipKeepsTag) {
                ask.va
            } else {
                self.regs.untag(regime, ask.va)
            };
            let _ = self.regs.walk_through(regime, bare, |at| {
                all.push(at);
                ram.get(at, 8)
            });
        }
        if self.makes(Mistake::FlipRepeatedPassedOver) {
            let once = |at: &u64| all.iter().filter(|a| *a == at).count() == 1;
            return all.iter().copied().filter(once).collect();
        }
        all
    }

    /// The first bit of a descriptor that changes the answer.
    fn first_bit(&self, ram: &Ram, ask: Ask, at: u64, answer: Result<u64, u8>) -> Option<u8> {
        if ram.get(at, 8).is_none() {
            let cut = (0..8).any(|i| ram.get(at + i, 1).is_some());
            return (cut && self.makes(Mistake::FlipCutCounted)).then_some(0);
        }
        let one = self.makes(Mistake::FlipFaultsAreOne);
        let differs = |other: Result<u64, u8>| other != answer && !(one && other.is_err() && answer.is_err());
        let found = tried(self)
            .into_iter()
            .find(|&bit| differs(self.answer_with(ram, ask, at, bit)))?;
        Some(if self.makes(Mistake::FlipBigEndian) {
            found ^ 56
        } else {
            found
        })
    }

    /// Of a question that is not refused.
    fn first_flip(&self, ram: &Ram, ask: Ask) -> Option<(u64, u8)> {
        let answer = self.regs.fresh_answer(ask.what, ask.va, |at| ram.get(at, 8));
        let mut descriptors = self.descriptors(ram, ask);
        let outside = descriptors.iter().any(|at| ram.get(*at, 8).is_none());
        if outside && self.makes(Mistake::FlipOutsideIsNone) {
            return None;
        }
        if self.makes(Mistake::FlipLastDescriptor) {
            descriptors.reverse();
        }
        let mut found = descriptors
            .into_iter()
            .filter_map(|at| Some((at, self.first_bit(ram, ask, at, answer)?)));
        found.next()
    }

    /// The mistakes of what stays behind, and of the address that is told.
    fn told(&mut self, ram: &mut Ram, va: u64, (at, bit): (u64, u8)) -> Ans {
        if self.makes(Mistake::FlipNotTakenBack) {
            ram.poke(at, ram.get(at, 8).unwrap_or(0) ^ 1 << bit);
        }
        let at = if self.makes(Mistake::FlipTableAddress) {
            at / 4096 * 4096
        } else if self.makes(Mistake::FlipVirtualAddress) {
            va
        } else {
            at
        };
        Ans::Bit(at, bit)
    }

    /// 1 and 2, then the first bit, if there is one. No word of RAM is written: a flipped word is read so.
    pub(super) fn flip(&mut self, ram: &mut Ram, kind: u8, user: bool, va: u64) -> Ans {
        if let Some(n) = self.ram_number(ram) {
            return Ans::Number(n);
        }
        let regime = if self.makes(Mistake::FlipAlwaysEl1) {
            1
        } else {
            self.regs.regime()
        };
        // Without EL0 both views are one.
        let ask = Ask {
            what: (regime, kind, user && regime == 1),
            va,
        };
        let bare = self.regs.untag(regime, va);
        if self.makes(Mistake::FlipFromCache) && self.find(regime, bare >> 12).is_some() {
            return Ans::None;
        }
        if self.makes(Mistake::FlipCountsWalks) && self.regs.on(regime) {
            self.count_walk(1);
        }
        match self.first_flip(ram, ask) {
            Some(found) => self.told(ram, va, found),
            None => Ans::None,
        }
    }
}
