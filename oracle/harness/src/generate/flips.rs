//! Flipped bits: over the pages that a scenario has, and at a trace's end over chains of tables in small windows. They
//! have random numbers of their own and move nothing, so that a seed's other lines are what they are without them.
use super::{Generator, Rng};
use crate::flips::{scene, Cell};
use crate::op::{Line, Op};

impl Generator {
    /// One now and then, after an access.
    pub(super) fn flip_here(&mut self) {
        let hot = self.hot;
        std::mem::swap(&mut self.r, &mut self.bits);
        if self.r.percent(3) {
            let va = self.address();
            self.ask_bit(va);
        }
        std::mem::swap(&mut self.r, &mut self.bits);
        self.hot = hot;
    }

    /// One while the level is one that there is not.
    pub(super) fn flip_refused(&mut self) {
        std::mem::swap(&mut self.r, &mut self.bits);
        if self.r.percent(25) {
            self.ask_bit(0x1000);
        }
        std::mem::swap(&mut self.r, &mut self.bits);
    }

    fn ask_bit(&mut self, va: u64) {
        let (kind, user) = (self.r.of(&[1, 2, 4]), self.r.percent(50));
        self.op(Op::Flip(kind, user, va));
    }

    /// Chains of tables at a trace's end.
    pub(super) fn flips(&mut self, seed: u64) {
        let mut own = Rng::new(seed.rotate_left(32) ^ 9);
        for _ in 0..3 {
            let cell = Cell::any(&mut own);
            self.lines.extend(scene(&cell, &mut own));
        }
        self.op(Op::Mark(false));
        self.lines.push(Line::Window(self.base, self.len));
    }
}
