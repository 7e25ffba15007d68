//! System operations: TLBI, AT, DC ZVA, cache maintenance, and encodings that name nothing.
use super::tables::Spot;
use super::Generator;
use crate::op::Op;

const ASIDS: [u64; 5] = [0, 1, 2, 0x101, 0xFFFF];

impl Generator {
    /// Mostly a level that may do what op1 names.
    fn rise(&mut self, op1: u32) {
        let need = (op1 / 2).max(1);
        if self.level < need && self.r.percent(85) {
            let l = need.max(self.r.of(&[1, 2, 3])).min(3);
            self.op(Op::Level(l));
        }
    }

    fn sink(&mut self) {
        if self.r.percent(90) {
            self.restore_level();
        }
    }

    /// An ASID in the place where TTBRs and TLBI operands have it.
    pub(super) fn asid(&mut self) -> u64 {
        self.r.of(&ASIDS) << 48
    }

    pub(super) fn tlbi(&mut self, s: Option<Spot>) {
        let rt = self.r.below(32) as u32;
        let asid = self.asid();
        let x = match s {
            Some(s) => {
                let page = match self.r.below(10) {
                    0 => (s.va >> 12) ^ 1,
                    1 => (s.va >> 12) ^ (1 << self.r.below(20)),
                    _ => s.va >> 12,
                };
                page & ((1 << 44) - 1) | asid | self.r.below(16) << 44
            }
            None => self.r.wild(),
        };
        if self.r.percent(90) {
            self.op(Op::SetX(rt, x));
        }
        let op1 = self.r.of(&[0, 0, 0, 0, 4, 4, 6, 6, 5]);
        let crm = self.crm(&[3, 7, 3, 7, 7, 3, 7, 0, 1, 5]);
        let op2 = self.r.of(&[1, 1, 1, 2, 2, 3, 5, 7, 0, 4, 6]);
        self.rise(op1);
        self.op(Op::Sys(op1, 8, crm, op2, rt));
        if self.r.percent(12) {
            self.op(Op::Sys(op1, 8, crm, op2, rt));
        }
        self.sink();
    }

    pub(super) fn at(&mut self) {
        let rt = self.r.below(31) as u32;
        let va = self.address();
        self.op(Op::SetX(rt, va));
        let named = [0, 1, 2, 3].map(|op2| (0, op2)).into_iter();
        let named = named
            .chain([0, 1, 4, 5, 6, 7].map(|op2| (4, op2)))
            .chain([(6, 0), (6, 1)]);
        let forms: Vec<(u32, u32)> = named.chain([(0, 4), (4, 2), (6, 2)]).collect();
        let (op1, op2) = self.r.of(&forms);
        self.rise(op1);
        self.op(Op::Sys(op1, 7, 8, op2, rt));
        self.sink();
    }

    pub(super) fn zero(&mut self) {
        let rt = self.r.below(32) as u32;
        let va = self.address();
        self.op(Op::SetX(rt, va));
        self.op(Op::Sys(3, 7, 4, 1, rt));
    }

    /// Nothing to do, but who may.
    pub(super) fn maintenance(&mut self) {
        let from_el0 = [10, 11, 14, 5].map(|crm| (3, crm, 1));
        let others = [(6, 1), (6, 2), (10, 2), (14, 1), (14, 2), (5, 0), (1, 0), (5, 1)];
        let others = others.map(|(crm, op2)| (0, crm, op2));
        let forms = [from_el0.as_slice(), &others, &[(3, 6, 1), (0, 11, 1)]].concat();
        let (op1, crm, op2) = self.r.of(&forms);
        self.op(Op::Sys(op1, 7, crm, op2, 31));
    }

    pub(super) fn any_system(&mut self) {
        let r = &mut self.r;
        let op = Op::Sys(
            r.of(&[0, 3, 4, 6, 7, 8, 2]),
            r.of(&[7, 7, 7, 8, 2, 15, 16]),
            r.of(&[0, 1, 4, 5, 6, 8, 10, 11, 14, 15, 16]),
            r.below(9) as u32,
            r.of(&[0, 1, 31, 31, 32, 30, 0xFFFF_FFFF]),
        );
        self.op(op);
    }
}
