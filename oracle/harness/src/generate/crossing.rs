//! Accesses from a page into the next, which mostly is not mapped, at windows that end about there. They have a stream
//! of random numbers of their own, and leave window and level as they were, so a seed's other lines are as they would
//! be without them.
use super::{Generator, Spot};
use crate::op::{Line, Op};

impl Generator {
    /// Now and then, after an action.
    pub(super) fn cross(&mut self) {
        let hot = self.hot;
        std::mem::swap(&mut self.r, &mut self.across);
        if self.r.percent(3) {
            self.cross_out_of_a_leaf();
        }
        std::mem::swap(&mut self.r, &mut self.across);
        self.hot = hot;
    }

    /// From the last bytes of a page or block on. The window ends before, at, among or after the bytes that lie there.
    fn cross_out_of_a_leaf(&mut self) {
        let Some(s) = self.open_spot() else { return };
        let tree = self.trees[s.tree];
        let inside = (1u64 << tree.lsb(s.level)) - 1;
        let before = 1 + self.r.below(7);
        let va = (s.va | inside).wrapping_add(1).wrapping_sub(before);
        let pa = (s.desc & 0xFFFF_FFFF_F000 & !inside) + inside + 1 - before;
        // EL0 mostly where it has rights.
        let user = s.desc >> 6 & 1 != 0 || self.r.percent(10);
        let level = match tree.regime {
            1 if user && self.r.percent(50) => 0,
            regime => regime,
        };
        self.op(Op::Level(level));
        let end = pa + self.r.below(before + 3);
        // A window that ended below `free` would lose tables.
        let cuts = self.free <= end && end < self.base + self.len + 0x4000 && !self.r.percent(10);
        if cuts {
            self.lines.push(Line::Window(self.base, end - self.base));
        }
        for _ in 0..1 + self.r.below(3) {
            let op = self.access_over(va, before);
            self.op(op);
        }
        if cuts {
            self.lines.push(Line::Window(self.base, self.len));
        }
        self.restore_level();
    }

    /// A mapped page, mostly one with its access flag.
    fn open_spot(&mut self) -> Option<Spot> {
        let mut spot = self.spot()?;
        for _ in 0..3 {
            if spot.desc & 0x401 == 0x401 {
                break;
            }
            spot = self.spot()?;
        }
        Some(spot)
    }

    /// A load or store of more bytes than these.
    fn access_over(&mut self, va: u64, before: u64) -> Op {
        let sizes: &[u32] = match before {
            1 => &[2, 4, 8],
            2 | 3 => &[4, 8],
            _ => &[8],
        };
        let (size, v) = (self.r.of(sizes), self.r.word());
        self.r.of(&[Op::Load(va, size), Op::Store(va, size, v)])
    }
}
