//! System operations: DC ZVA, cache maintenance, TLBI, AT.
use super::bits::{bit, bits};
use super::{needed, Bank, DocCore, Inval, Mistake, Regs};
use crate::op::Ans;
use crate::Ram;

impl DocCore {
    /// `fields`: op1, CRn, CRm, op2.
    pub(super) fn system(&mut self, ram: &mut Ram, fields: [u32; 4], rt: u32) -> Ans {
        let level = self.regs.level;
        let [op1, crn, crm, op2] = fields;
        let allowed = op1 / 2 <= level;
        match (op1, crn, crm, op2) {
            (3, 7, 4, 1) => self.at_regime(Mistake::ZeroCountedAtRegime, |c| c.zero(ram, rt)),
            (3, 7, 5 | 10 | 11 | 14, 1) => Ans::Ok,
            _ if level == 0 => Ans::Undefined,
            (0, 7, 6 | 10 | 14, 1 | 2) | (0, 7, 1 | 5, 0) => Ans::Ok,
            (0 | 4 | 6, 8, _, _) if allowed => {
                let what = self.tlbi(op1, crm, op2, rt);
                self.invalidate(what);
                if crm == 3 {
                    self.tell_others(what);
                }
                Ans::Ok
            }
            (0, 7, 8, 0..=3) | (4, 7, 8, 0 | 1 | 4..=7) | (6, 7, 8, 0 | 1) if allowed => {
                if self.makes(Mistake::AtCountsWalk) {
                    self.count_walk(1);
                }
                let regime = match (op1, op2) {
                    (6, _) => 3,
                    (4, 0 | 1) => 2,
                    _ => 1,
                };
                let user = regime == 1 && matches!(op2, 2 | 3 | 6 | 7);
                let va = self.regs.general(rt);
                let mut reads = 0;
                self.regs.par = self
                    .regs
                    .address_translation(ram, regime, user, op2 % 2 == 1, va, &mut reads);
                if !self.makes(Mistake::ReadsAtNone) {
                    self.reads = reads;
                }
                Ans::Ok
            }
            _ => Ans::Unimplemented,
        }
    }

    /// DC ZVA: eight stores of eight bytes.
    fn zero(&mut self, ram: &mut Ram, rt: u32) -> Ans {
        let base = self.regs.general(rt) / 64 * 64;
        let once = self.makes(Mistake::ZeroTranslatesOnce);
        let first = if once {
            self.clone().translate(ram, 2, base)
        } else {
            Err(0)
        };
        for i in 0..8 {
            if self.makes(Mistake::ReadsLastStore) {
                self.reads = 0;
            }
            let answer = match first {
                Ok(pa) if i > 0 && ram.put(pa + 8 * i, 8, 0) => Ans::Ok,
                _ => self.store_bytes(ram, base + 8 * i, 8, 0),
            };
            if answer != Ans::Ok {
                return answer;
            }
        }
        Ans::Ok
    }

    /// A broadcast: one that differs from the pending one makes it All.
    pub(super) fn tell_others(&mut self, what: Inval) {
        self.broadcast = match self.broadcast {
            Some(p) if p != what || self.makes(Mistake::EqualBroadcastIsAll) => Some(Inval::All),
            _ => Some(what),
        };
    }

    /// What a TLBI drops.
    pub fn tlbi(&self, op1: u32, crm: u32, op2: u32, rt: u32) -> Inval {
        let x = self.regs.general(rt);
        let named = crm == 3 || crm == 7;
        let by_address = named && (op2 == 1 || op2 == 5 || (op1 == 0 && (op2 == 3 || op2 == 7)));
        let tcr = self.regs.get(Bank::Tcr, (op1 / 2).max(1));
        let upper_small = op1 != 0 || bits(tcr, 31, 30) == 2 || self.makes(Mistake::PageIgnoresTg1);
        if by_address && bits(tcr, 15, 14) == 0 && upper_small {
            return Inval::Page(x);
        }
        if named && op1 == 0 && op2 == 2 {
            let wide = bit(tcr, 36) || self.makes(Mistake::AsidAlwaysWide);
            return Inval::Asid(bits(x, if wide { 63 } else { 55 }, 48) as u16);
        }
        Inval::All
    }
}

impl Regs {
    /// What an AT writes into PAR. It walks afresh and touches neither cache nor counters; what it reads is added to
    /// `reads`.
    fn address_translation(
        &self,
        ram: &Ram,
        regime: u32,
        user: bool,
        write: bool,
        va: u64,
        reads: &mut u64,
    ) -> u64 {
        let page = |a: u64| bits(a, 47, 12) << 12;
        let fault = |s: u8| 0x801 + 2 * u64::from(s);
        let ns = bit(self.get(Bank::Scr, 3), 0) && regime != 3;
        if !self.on(regime) {
            let untested = self.makes(Mistake::FlatAtUntested);
            return match self.flat(regime, va) {
                Err(s) if !untested => fault(s),
                answer => page(answer.unwrap_or(va)) + 0x800 + 0x200 * ns as u64,
            };
        }
        let need = needed(1 + write as u8, user);
        match self.walk_counting(ram, regime, self.untag(regime, va), reads) {
            Err(s) => fault(s),
            Ok(l) if l.perms & need == 0 => fault(0x0C + l.level),
            Ok(l) => {
                let low = 8 * u32::from(l.attr);
                let attr = bits(self.get(Bank::Mair, regime), low + 7, low);
                let ns = (ns || l.ns) as u64;
                page(l.oa) + (attr << 56) + (u64::from(l.sh) << 7) + 0x200 * ns + 0x800
            }
        }
    }
}
