// Written by tools/plain from crates/tlb/src/translate.rt: change that.
//! One translation, in place: the hint, the entry, the walk.

use crate::stage1::fault::Fault;
use crate::stage1::sysreg::regs::Regime;
use crate::stage1::tlb::Tlb;
use crate::stage1::tlb::access::{self, Kind, Privilege, Request};
use crate::stage1::tlb::entry::Entry;
use crate::stage1::tlb::hint::{self, Hint};
use crate::stage1::tlb::work::Work;

impl Tlb {
    /// Where the data hint sends an access, if one serves.
    #[inline]
    pub fn by_hint(&self, privilege: Privilege, va: u64, kind: Kind) -> Option<u64> {
        if privilege.may_hint(kind) {
            self.hints[hint::data_slot(va, kind)].find(privilege.level, va)
        } else {
            None
        }
    }

    /// An allowed address becomes a hint, where one may serve.
    #[inline(always)]
    fn leave_hint(&mut self, a: Request, answer: Result<u64, Fault>) {
        if a.privilege.may_hint(a.kind)
            && let Ok(pa) = answer
        {
            self.hints[hint::data_slot(a.va, a.kind)] = Hint::new(a.va, a.privilege.level, pa);
        }
    }

    /// The answer of a translation that no hint serves, where no walk is needed: with stage 1 off by the address
    /// alone, or by the entry of its page. It leaves a hint, where one may serve. RAM is read by no code here.
    #[inline(always)]
    pub fn at_hand(&mut self, a: Request, base: u64, ram: &[u8]) -> Option<Result<u64, Fault>> {
        let regime = Regime::of_level(a.privilege.level);
        let answer = if !a.bank.stage1_on(regime) {
            // A fault leaves by its own exit, so that an entry pays nothing for it.
            match access::flat(&a.bank, regime, a.va) {
                Ok(pa) => Ok(pa),
                Err(fault) => return Some(Err(fault)),
            }
        } else {
            let va = a.bank.untag(regime, a.va);
            let e = self.get(access::tag_of(regime, va))?;
            self.count_hit(a.privilege.level);
            e.judge(a.privilege.is_user(regime, a.kind), a.kind, a.va)
        };
        self.leave_hint(a, answer);
        Some(answer)
    }

    /// A translation by a walk, whatever is at hand: where a walk is needed, the translation. A leaf becomes an entry
    /// and is judged, a fault makes none. It leaves a hint, where one may serve; what was read counts in `work`.
    #[inline(always)]
    pub fn by_walk(&mut self, a: Request, base: u64, ram: &[u8], work: &mut Work) -> Result<u64, Fault> {
        let regime = Regime::of_level(a.privilege.level);
        let va = a.bank.untag(regime, a.va);
        self.count_walk(a.privilege.level);
        let bank = a.bank;
        let walked = bank.walk(regime, va, base, ram);
        work.add_reads(walked.reads);
        let leaf = walked.end.map_err(crate::stage1::fault::first)?;
        let e = Entry::new(leaf, self.asid, access::tag_of(regime, va));
        self.put(e);
        let answer = e.judge(a.privilege.is_user(regime, a.kind), a.kind, a.va);
        self.leave_hint(a, answer);
        answer
    }
}
