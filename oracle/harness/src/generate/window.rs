//! Other windows for a while: moved, cut, empty, at the end of the address space, beyond it.
use super::keys::SCTLR;
use super::Generator;
use crate::op::{Line, Op};

impl Generator {
    pub(super) fn window(&mut self) {
        let (base, len) = (self.base, self.len);
        let r = &mut self.r;
        let (new_base, new_len) = match r.below(6) {
            0 => (base, r.below(len)),
            1 => (base.wrapping_add(8 * r.below(64)), len),
            2 => (u64::MAX - r.below(len), len),
            3 => (0u64.wrapping_sub(len), len),
            4 => (base, 0),
            _ => (r.wild(), len),
        };
        // First without dropping bytes: a shorter window would lose tables.
        self.lines.push(Line::Window(new_base, new_len.max(len)));
        if new_len < len && self.r.percent(30) {
            self.lines.push(Line::Window(new_base, new_len));
            for _ in 0..1 + self.r.below(5) {
                self.access();
            }
            self.lines.push(Line::Window(base, len));
            self.write_tables();
            return;
        }
        for _ in 0..1 + self.r.below(5) {
            if self.r.percent(30) {
                self.flat_at_edge(new_base);
            } else {
                self.access();
            }
        }
        self.lines.push(Line::Window(base, len));
    }

    /// Stage 1 off sees the window's edges as they are.
    fn flat_at_edge(&mut self, base: u64) {
        let n = self.len;
        let va = base.wrapping_add(self.r.of(&[0, n, n - 1, n - 4, n - 8, 4]));
        let size = self.r.of(&[1, 2, 4, 8]);
        let store = Op::Store(va, size, 0x0123_4567_89AB_CDEF);
        let op = self.r.of(&[Op::Load(va, size), store, Op::Fetch(va)]);
        self.op(Op::Level(1));
        self.reg(SCTLR[1], 0);
        self.op(op);
        self.op(op);
        let v = self.regs[&SCTLR[1]];
        self.reg(SCTLR[1], v);
        self.restore_level();
    }
}
