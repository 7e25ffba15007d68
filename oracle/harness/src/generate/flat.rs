//! The edge of flat addresses, 2^44, with tags and without, at the end of a trace. It has a stream of random numbers of its
//! own, so what stands before is as it was.
use super::keys::{SCTLR, TCR};
use super::{Generator, Rng};
use crate::op::{Line, Op};

/// The first address that is too large.
const EDGE: u64 = 1 << 44;

impl Generator {
    pub(super) fn flat_edge(&mut self, seed: u64) {
        let mut r = Rng::new(seed.rotate_left(32) ^ 44);
        let regime = 1 + r.below(3) as u32;
        let level = if regime == 1 && r.percent(50) { 0 } else { regime };
        let tcr = r.below(2) << 20 | r.below(4) << 37;
        self.lines.push(Line::Window(EDGE - 8 * r.below(3), 16));
        self.op(Op::Level(3));
        self.reg(TCR[regime as usize], tcr);
        self.reg(SCTLR[regime as usize], 0);
        self.op(Op::Level(level));
        for _ in 0..8 {
            let tag = if r.percent(30) { r.below(256) << 56 } else { 0 };
            let va = EDGE - 8 + r.below(16) | tag;
            let op = Generator::flat_access(&mut r, va, regime);
            if let Op::Sys(.., rt) = op {
                self.op(Op::SetX(rt, va));
            }
            self.op(op);
            self.op(op);
        }
        self.lines.push(Line::Window(self.base, self.len));
    }

    fn flat_access(r: &mut Rng, va: u64, regime: u32) -> Op {
        let size = r.of(&[1, 2, 4, 8, 8]);
        match r.below(8) {
            0 => Op::Translate(r.of(&[1, 2, 4]), va),
            1 | 2 => Op::Load(va, size),
            3 | 4 => Op::Store(va, size, r.word()),
            5 => Op::Fetch(va),
            6 => Op::Census(va - 0x1000, 1 + r.below(3)),
            _ => r.of(&[Op::Sys([0, 0, 4, 6][regime as usize], 7, 8, 0, 3), Op::Sys(3, 7, 4, 1, 3)]),
        }
    }
}
