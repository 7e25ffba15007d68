//! Register writes: other ASIDs, other tables, single bits, any value, any key.
use super::keys::{self, HCR, MAIR, SCR, SCTLR, TCR, TTBR0, TTBR1};
use super::Generator;
use crate::op::Op;
use pimu::aarch64::sysreg::key;

const ASID_FIELD: u64 = 0xFFFF << 48;

impl Generator {
    /// TTBR0_EL1 as it is, under another ASID.
    pub(super) fn other_asid(&mut self, asid: u64) {
        let v = (self.regs[&TTBR0[1]] & !ASID_FIELD) | asid;
        self.reg(TTBR0[1], v);
    }

    /// Another ASID, other tables, or both.
    pub(super) fn switch(&mut self) {
        let l = self.level;
        if l == 0 && !self.r.percent(5) {
            self.op(Op::Level(1));
        }
        let asid = self.asid();
        match self.r.below(6) {
            0 => {
                let root = self.trees[2].root;
                self.reg(TTBR1, root | asid);
            }
            1 => self.other_asid(asid),
            2 => {
                // Other tables under the ASID in force.
                let v = self.trees[self.r.below(2) as usize].root | self.regs[&TTBR0[1]] & ASID_FIELD;
                self.keep(TTBR0[1], v);
            }
            3 => {
                let i = self.r.of(&[2usize, 3]);
                let v = self.trees[i + 1].root ^ if self.r.percent(20) { 1 << 48 } else { 0 };
                self.reg(TTBR0[i], v);
            }
            _ => {
                let v = self.trees[self.r.below(2) as usize].root | asid;
                self.keep(TTBR0[1], v);
            }
        }
        if l == 0 {
            self.op(Op::Level(0));
        }
    }

    /// A write that the scenario remembers.
    fn keep(&mut self, k: u32, v: u64) {
        self.reg(k, v);
        self.regs.insert(k, v);
    }

    /// One bit of one register, mostly put back after some accesses.
    pub(super) fn toggle(&mut self) {
        let l = self.level;
        if l == 0 && !self.r.percent(10) {
            self.op(Op::Level(1));
        }
        let i = self.r.of(&[1usize, 1, 1, 2, 3]);
        let (k, b) = match self.r.below(5) {
            0 => (SCTLR[i], self.r.of(&[0u64, 0, 19, 19, 5])),
            1 => (TCR[i], self.r.of(&[37u64, 38, 20, 22, 36, 7, 23, 14, 30, 32, 0])),
            2 => (HCR, self.r.of(&[27u64, 12, 19, 1])),
            3 => (SCR, self.r.of(&[0u64, 7, 8, 1])),
            _ => (MAIR[i], self.r.below(64)),
        };
        let old = self.regs[&k];
        let v = old ^ (1 << b);
        self.reg(k, v);
        if l == 0 {
            self.op(Op::Level(0));
        }
        for _ in 0..self.r.below(6) {
            self.access();
        }
        if self.r.percent(10) && b != 0 && b != 27 && b != 12 {
            self.regs.insert(k, v);
        } else if self.r.percent(95) {
            self.op(Op::Level(3));
            self.reg(k, old);
            self.op(Op::Level(l));
        }
    }

    /// Any value in any register that is kept, mostly put back after some accesses.
    pub(super) fn any_value(&mut self) {
        let k = self.r.of(&keys::all());
        let v = self.r.wild();
        self.reg(k, v);
        for _ in 0..self.r.below(8) {
            self.access();
        }
        if self.r.percent(85) {
            let l = self.level;
            self.repair();
            self.set_level(l);
        }
    }

    pub(super) fn any_key(&mut self) {
        let r = &mut self.r;
        let k = match r.below(3) {
            0 => r.below(0x10000) as u32,
            1 => {
                let op1 = r.of(&[0, 3, 4, 6]);
                key(3, op1, r.below(16) as u32, r.below(8) as u32, r.below(8) as u32)
            }
            _ => r.word() as u32,
        };
        let v = r.wild();
        self.reg(k, v);
    }
}
