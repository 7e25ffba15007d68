// Written by tools/plain from crates/flip/src/lib.rt: change that.
//! One flipped bit: which single bit of RAM, the other way, changes how an access ends with nothing cached. A bit is
//! flipped in RAM and taken back, so that every read of its word sees it.

use crate::stage1::cpu::Core;
use crate::stage1::cpu::check::{self, Check};
use crate::stage1::fault::Fault;
use crate::stage1::sysreg::regs::Regime;
use crate::stage1::tlb::access::Kind;
use crate::stage1::tlb::fresh::fresh_answer;
use crate::stage1::walk::regime::Bank;
use crate::stage1::word::ram;

/// A bit of a descriptor in RAM.
#[derive(Clone, Copy, PartialEq, Eq, Debug)]
pub struct FlippedBit {
    /// The descriptor's physical address.
    pub pa: u64,
    /// The bit of its little-endian word, 0 to 63.
    pub bit: u8,
}

/// A translation that is asked for with nothing cached.
#[derive(Clone, Copy, Debug, PartialEq, Eq)]
pub struct Question {
    pub bank: Bank,
    pub regime: Regime,
    /// Judged by EL0's rights.
    pub user: bool,
    pub kind: Kind,
    pub va: u64,
}

/// Whether two answers are one: address and address, or status and status.
#[inline]
fn same(a: Result<u64, Fault>, b: Result<u64, Fault>) -> bool {
    a == b
}

/// Where the eight bytes at a physical address stand in RAM, if all of them do.
#[inline]
fn place(base: u64, ram: &[u8], pa: u64) -> Option<usize> {
    if ram::inside(base, ram.len() as u64, 8, pa) {
        Some((pa - base) as usize)
    } else {
        None
    }
}

impl Question {
    /// In the regime of the core's level, under its registers. The view, EL0's or the regime's own, counts in the EL1&0
    /// regime alone; neither the level's own nor the mark does.
    #[inline]
    pub fn new(core: &Core, va: u64, kind: Kind, user: bool) -> Self {
        let regime = core.regime();
        Question {
            bank: core.bank(),
            regime,
            user: user && regime == Regime::El1,
            kind,
            va,
        }
    }

    /// The answer over the RAM that starts at `base`.
    #[inline(never)]
    pub fn answer(&self, base: u64, ram: &[u8]) -> Result<u64, Fault> {
        fresh_answer(self.bank, self.regime, self.user, self.kind, self.va, base, ram)
    }

    /// The answer with one bit of the eight bytes from `at` the other way.
    #[inline]
    fn answer_flipped(&self, base: u64, ram: &mut [u8], at: usize, bit: u8) -> Result<u64, Fault> {
        let i = at + (bit / 8) as usize;
        let kept = ram[i];
        ram[i] = kept ^ (1 << (bit % 8));
        let answer = self.answer(base, ram);
        ram[i] = kept;
        answer
    }

    /// The answer with a bit of RAM the other way; RAM stays as it was. A bit of a word that is not inside RAM, or
    /// above 63, flips nothing.
    #[inline]
    pub fn answer_with(&self, base: u64, ram: &mut [u8], flip: FlippedBit) -> Result<u64, Fault> {
        match place(base, ram, flip.pa) {
            Some(at) if flip.bit < 64 => self.answer_flipped(base, ram, at, flip.bit),
            _ => self.answer(base, ram),
        }
    }

    /// The lowest bit of the descriptor at `pa` whose flip changes the answer; none where it is not wholly in RAM.
    #[inline]
    fn first_bit(
        &self,
        base: u64,
        ram: &mut [u8],
        answer: Result<u64, Fault>,
        pa: u64,
    ) -> Option<FlippedBit> {
        let at = place(base, ram, pa)?;
        for bit in 0..64 {
            if !same(self.answer_flipped(base, ram, at, bit), answer) {
                return Some(FlippedBit { pa, bit });
            }
        }
        None
    }

    /// The first descriptor of the walk, and its lowest bit, whose flip changes the answer; RAM stays as it was.
    #[inline]
    pub fn first_flip(&self, base: u64, ram: &mut [u8]) -> Option<FlippedBit> {
        if !self.bank.stage1_on(self.regime) {
            return None;
        }
        let answer = self.answer(base, ram);
        let va = self.bank.untag(self.regime, self.va);
        for n in 0..4 {
            let visit = self.bank.visit(self.regime, va, base, ram, n)?;
            let found = self.first_bit(base, ram, answer, visit.at);
            if found.is_some() {
                return found;
            }
        }
        None
    }
}

/// The first descriptor that the walk of an address fetches, and its lowest bit, whose flip in RAM changes how an
/// access by EL0's rights, or by the regime's own, ends with nothing cached; none where no bit of RAM does. RAM is
/// changed while the call runs, and is as it was when it returns. The answer depends on nothing but the registers
/// that translate, the level, RAM and what is asked: on no cache, on no mark, on no earlier call.
#[inline]
pub fn flip(
    core: &Core,
    base: u64,
    ram: &mut [u8],
    va: u64,
    kind: Kind,
    user: bool,
) -> Result<Option<FlippedBit>, Check> {
    check::with_ram(core.privilege.level, base, ram.len() as u64)?;
    Ok(Question::new(core, va, kind, user).first_flip(base, ram))
}
