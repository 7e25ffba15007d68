//! A scenario: a window, tables in it, registers that use them.
use super::keys::{HCR, MAIR, SCR, SCTLR, TCR, TTBR0, TTBR1, VBAR};
use super::tables::{pa_bits, Tree, Which};
use super::{Generator, Rng, Style};
use crate::op::Line;

/// A TxSZ, now and then one beyond the clamps.
fn size_field(r: &mut Rng) -> u64 {
    match r.below(20) {
        0 => r.below(64),
        1 => r.of(&[0, 15, 16, 17, 39, 40, 63]),
        _ => r.of(&[16, 17, 20, 22, 24, 25, 25, 26, 28, 30, 32, 33, 34, 35, 38, 39]),
    }
}

impl Generator {
    pub(super) fn scenario(&mut self) {
        let big = self.lay_window();
        let tcr = [0, self.tcr(1, big), self.tcr(2, big), self.tcr(3, big)];
        self.plant_trees(&tcr);
        self.map_pages();
        self.wrap = self.r.percent(30);
        if self.wrap {
            self.map_wrap();
        }
        self.lines
            .extend([Line::Fresh, Line::Window(self.base, self.len), Line::Zero]);
        self.write_tables();
        self.scatter();
        self.choose_registers(&tcr);
        self.repair();
        if self.style == Style::Wild {
            self.wild_core();
        }
        let l = self.r.of(&[0, 0, 1, 1, 1, 2, 3]);
        self.set_level(l);
    }

    /// The window's place and size; true where 64 KiB tables may fit.
    pub(super) fn lay_window(&mut self) -> bool {
        let r = &mut self.r;
        let base = match r.below(12) {
            0..=2 => 0,
            3 => 0x1000,
            4..=6 => 0x4000_0000,
            7 => 0x8_0000_0000,
            8 => (1 << 44) - 0x10_0000 - 0x1_0000 * r.below(4),
            9 => 0x4000_0000 + 8 * r.below(0x400),
            10 => r.word() & 0xFFFF_F000,
            _ => r.word() & 0xFFF_FFFF_F000,
        };
        let big = r.percent(40);
        self.len = if big { 0x10_0000 } else { 0x3_0000 } + r.below(0x3000);
        self.base = base.min((1 << 44) - 0x1000);
        self.free = self.base;
        self.mem.clear();
        self.trees.clear();
        self.spots.clear();
        self.regs.clear();
        big
    }

    pub(super) fn tcr(&mut self, level: usize, big: bool) -> u64 {
        let last = self.base + self.len - 1;
        let need = (0..=4).find(|c| last >> pa_bits(*c) == 0).unwrap_or(4);
        let r = &mut self.r;
        let ps = if r.percent(70) { need } else { r.below(8) };
        self.ps[level] = ps;
        let tg0 = if big && r.percent(50) {
            1
        } else {
            r.of(&[0, 0, 0, 0, 0, 0, 2, 3])
        };
        let mut t = size_field(r) | tg0 << 14;
        if level == 1 {
            let tg1 = if big && r.percent(50) {
                3
            } else {
                r.of(&[2, 2, 2, 2, 2, 2, 0, 1])
            };
            t |= size_field(r) << 16 | tg1 << 30 | ps << 32;
            for (b, p) in [(37, 40), (38, 40), (36, 40), (22, 30), (7, 3), (23, 3)] {
                if r.percent(p) {
                    t |= 1 << b;
                }
            }
        } else {
            t |= ps << 16;
            if r.percent(40) {
                t |= 1 << 20;
            }
        }
        if r.percent(5) {
            t |= r.wild() & !0x7_FFFF_FFFF & !(7 << 36);
        }
        t
    }

    /// Two trees for TTBR0_EL1, then TTBR1_EL1's, EL2's and EL3's.
    pub(super) fn plant_trees(&mut self, tcr: &[u64; 4]) {
        for (regime, upper) in [(1, false), (1, false), (1, true), (2, false), (3, false)] {
            let t = tcr[regime as usize];
            let size = if upper { t >> 16 & 63 } else { t & 63 };
            let wide = if upper { t >> 30 & 3 == 3 } else { t >> 14 & 3 == 1 };
            let mut tree = Tree {
                regime,
                upper,
                root: 0,
                input: 64 - size.clamp(16, 39) as u32,
                granule: if wide { 16 } else { 12 },
            };
            tree.root = self.alloc(tree.root_size()).unwrap_or(self.base & !0xFFFF);
            self.trees.push(tree);
        }
    }

    pub(super) fn map_pages(&mut self) {
        let n = 18 + self.r.below(14);
        for i in 0..n {
            let before = self.spots.len();
            let which = match i {
                0..=2 if self.r.percent(60) => [Which::First(0), Which::Last, Which::First(1)][i as usize],
                _ => Which::Any,
            };
            self.map_one(which);
            // Neighbours, so that a split access finds its second page.
            if self.spots.len() > before && self.r.percent(30) {
                self.map_one(Which::Next);
            }
        }
    }

    /// The last page of all and page 0: read and write for all; page 0 often at the window's end, so that some
    /// of its bytes are outside.
    fn map_wrap(&mut self) {
        for i in 0..self.spots.len() {
            let s = self.spots[i];
            let tree = self.trees[s.tree];
            if s.level != 3 || tree.regime != 1 || (s.va != 0 && s.va != !0xFFF) {
                continue;
            }
            let end = self.base + self.len;
            let oa = match self.r.below(4) {
                0 => end,
                1 if s.va == 0 => end,
                2 if s.va == 0 => end + (1 << tree.granule),
                _ => self.free.max(self.base),
            } & !tree.inside();
            let d = oa | 0x443 | self.r.below(2) << 11;
            self.spots[i].desc = d;
            self.mem.insert(s.at, d);
        }
    }

    /// Some words in RAM beside the tables.
    pub(super) fn scatter(&mut self) {
        for _ in 0..20 {
            let a = self.base + self.r.below(self.len);
            if a >= self.free {
                let v = self.r.word();
                self.lines.push(Line::Poke(a, v));
            }
        }
    }

    pub(super) fn choose_registers(&mut self, tcr: &[u64; 4]) {
        let r = &mut self.r;
        for l in 1..=3 {
            self.regs.insert(MAIR[l], r.word());
            self.regs.insert(VBAR[l], r.wild());
            self.regs.insert(TCR[l], tcr[l]);
            let root = self.trees[[0, 0, 3, 4][l]].root;
            let asid = r.of(&[0u64, 1, 2, 0x101, 0xFFFF]) << 48;
            self.regs.insert(TTBR0[l], root | asid | r.below(2));
            let wxn = if r.percent(25) { 1 << 19 } else { 0 };
            let m = !r.percent(if l == 1 { 5 } else { 25 }) as u64;
            self.regs.insert(SCTLR[l], 0x30D0_0800 | wxn | m);
        }
        let asid = r.of(&[0u64, 1, 2, 0x101]) << 48;
        self.regs.insert(TTBR1, self.trees[2].root | asid);
        let scr = (r.word() & 0x187) | (r.percent(60) as u64);
        self.regs.insert(SCR, scr);
        let mut hcr = r.word() & (1 << 19 | 1 << 3);
        if r.percent(8) {
            hcr |= 1 << 27;
        }
        if r.percent(5) {
            hcr |= 1 << 12;
        }
        self.regs.insert(HCR, hcr);
    }

    /// Put the registers back as the scenario has them.
    pub(super) fn repair(&mut self) {
        self.set_level(3);
        let mut all: Vec<(u32, u64)> = self.regs.iter().map(|(k, v)| (*k, *v)).collect();
        let turn = self.r.below(all.len() as u64) as usize;
        all.rotate_left(turn);
        for (k, v) in all {
            self.reg(k, v);
        }
    }
}
