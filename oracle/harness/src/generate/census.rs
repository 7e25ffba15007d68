//! Page censuses: at the ends of the address ranges, where the tag or bit 55 changes, at 2^64, over mapped pages.
use super::keys::TCR;
use super::Generator;
use crate::count::MOST_PAGES;
use crate::op::Op;

impl Generator {
    /// A census now and then. It has random numbers of its own and moves nothing, so that a seed's other lines are
    /// what they would be without it.
    pub(super) fn glance(&mut self) {
        let hot = self.hot;
        std::mem::swap(&mut self.r, &mut self.aside);
        if self.r.percent(6) {
            self.census();
        }
        std::mem::swap(&mut self.r, &mut self.aside);
        self.hot = hot;
    }

    /// Mostly few: a walk for each of 65,536 pages takes milliseconds.
    fn pages(&mut self) -> u64 {
        let r = &mut self.r;
        match r.below(1000) {
            0..=39 => 0,
            40..=149 => 1,
            150 | 151 => MOST_PAGES,
            152..=163 => MOST_PAGES + 1,
            164..=175 => r.wild() | 1 << r.of(&[17, 52, 63]),
            176..=191 => r.below(4096),
            _ => 1 + r.below(64),
        }
    }

    /// Where the lower range ends and where the upper one begins, by the TCR of the regime in force.
    fn range_ends(&self) -> [u64; 2] {
        let tcr = self.regs[&TCR[self.level.max(1) as usize]];
        let size = |field: u64| 1u64 << (64 - (field & 63).clamp(16, 39));
        [size(tcr), size(tcr >> 16).wrapping_neg()]
    }

    /// An address that a census is to have pages on both sides of.
    fn edge(&mut self) -> u64 {
        let [lower, upper] = self.range_ends();
        let r = &mut self.r;
        let edge = match r.below(20) {
            0..=3 => lower,
            4..=6 => upper,
            7 => 1 << 55,
            8..=11 => r.below(256) << 56,
            12 | 13 => 0,
            _ => return self.address(),
        };
        // Under another tag: mostly that of a range which ignores it.
        if r.percent(30) {
            edge ^ r.below(256) << 56
        } else {
            edge
        }
    }

    fn census(&mut self) {
        let pages = self.pages();
        let edge = self.edge();
        let r = &mut self.r;
        // At 0 the range ends exactly at 2^64, or passes it by a page.
        let before = match r.below(4) {
            0 => pages,
            1 => pages.saturating_sub(1),
            _ => r.below(pages.min(MOST_PAGES) + 1),
        };
        let first = (edge & !0xFFF).wrapping_sub(before.wrapping_mul(4096));
        let low = if r.percent(50) { r.below(4096) } else { 0 };
        self.op(Op::Census(first | low, pages));
    }
}
