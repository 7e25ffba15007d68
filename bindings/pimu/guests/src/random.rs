//! Random guests: programs of short pieces over tables that they change as they go.
use crate::encode::*;
use crate::rng::Rng;
use crate::scene::*;
use crate::world::{World, ALIAS};

/// A random guest of so many cores: what lies on the bus, and where each core begins.
pub fn guest(seed: u64, cores: usize) -> (crate::bus::Bus, Vec<u64>) {
    let mut world = World::new(seed);
    let starts: Vec<u64> = (0..cores as u64).map(|n| CODE + n * 0xC000).collect();
    for start in &starts {
        let program = world.program(*start);
        world.scene.code(program);
    }
    (world.scene.bus, starts)
}

impl World {
    /// From reset to a level, then pieces, for ever.
    fn program(&mut self, at: u64) -> Asm {
        let mut p = Asm::new(at);
        self.boot(&mut p);
        let from = p.here();
        while p.here() < at + 0xB800 {
            // Every few pieces a branch passes over the next.
            let over = self.rng.chance(8).then_some(p.words.len());
            if over.is_some() {
                p.put(&[NOP]);
            }
            self.piece(&mut p);
            if let Some(place) = over {
                let distance = (p.words.len() - place) as u32;
                p.words[place] = self
                    .rng
                    .pick(&[0xB400_0000, 0xB500_0000, 0x5400_0001, 0x5400_0002])
                    | distance << 5;
            }
        }
        let back = (from as i64 - p.here() as i64) / 4;
        p.put(&[b(back as i32)]);
        p
    }

    fn boot(&mut self, p: &mut Asm) {
        let on = if self.mapped || self.rng.chance(2) {
            SCTLR_ON
        } else {
            SCTLR_ON & !1
        };
        for el in 1..4 {
            let key = |key| at_level(key, el);
            let tcr = if el == 1 {
                self.tcr
            } else {
                self.tcr & 0xFFFF | self.tcr >> 17 & 1 << 20
            };
            p.set(key(VBAR_EL1), VECTORS[el as usize]).set(key(TCR_EL1), tcr);
            p.set(key(MAIR_EL1), self.rng.next());
            p.set(
                key(TTBR0_EL1),
                self.roots[el as usize - 1] | if el == 1 { 1 << 48 } else { 0 },
            );
        }
        let begin = p.at;
        p.set(TTBR1_EL1, self.roots[3]).li(28, begin);
        p.set(SCR_EL3, 0x500 | self.rng.below(2));
        for el in 1..4 {
            p.set(at_level(SCTLR_EL1, el), on);
        }
        let (el1, el2) = (
            self.rng.pick(&[0x3C5, 0x345, 0x3C4]),
            self.rng.pick(&[0x3C9, 0x349]),
        );
        match self.rng.below(8) {
            0 => {}
            1 => lower_to(p, 3, el2),
            _ => lower_to(p, 3, el1),
        }
        for r in 4..16 {
            p.li(r, self.rng.next() & 0xFFFF_FFFF);
        }
    }

    /// An address: mostly in a page that was mapped once, often near its end.
    fn address(&mut self) -> u64 {
        let r = &mut self.rng;
        let page = r.pick(&self.pages);
        let offset = match r.below(4) {
            0 => 0xFF0 + r.below(16),
            1 => r.below(0x1000),
            _ => r.below(0x200) * 8,
        };
        let va = page + offset;
        match r.below(24) {
            0 => FRAMES + r.below(0x8000),
            1 => BASE + ALIAS + r.below(0x20_0000),
            2 => r.below(1 << 44),
            3 => 0xFFFF_FF80_0000_0000 | va,
            4 => va | 0x5A << 56,
            5 => r.next(),
            6 => (FRAMES + r.below(0x8000)) | r.below(2) << 55 | 0x5A << 56,
            _ => va,
        }
    }

    fn piece(&mut self, p: &mut Asm) {
        match self.rng.below(100) {
            0..=49 => self.access(p),
            50..=57 => self.table(p),
            58..=67 => self.invalidation(p),
            68..=74 => self.register(p),
            75..=78 => self.maintenance(p),
            79..=84 => self.exception(p),
            85..=88 => self.level(p),
            89..=91 => self.away(p),
            92..=93 => self.other(p),
            _ => self.compute(p),
        }
    }

    fn access(&mut self, p: &mut Asm) {
        p.li(0, self.address());
        let r = &mut self.rng;
        for _ in 0..1 + r.below(3) {
            let word = any_access(r);
            p.put(&[word]);
        }
    }

    /// A descriptor is written.
    fn table(&mut self, p: &mut Asm) {
        let (at, leaf) = (self.rng.pick(&self.descriptors), self.leaf());
        store(p, at, leaf);
        if self.rng.chance(2) {
            p.put(&[DSB]);
        }
    }

    fn invalidation(&mut self, p: &mut Asm) {
        let va = self.address();
        let r = &mut self.rng;
        let value = (va >> 12) | (r.below(4) | r.below(2) << 8) << 48;
        let op1 = r.pick(&[0, 0, 0, 0, 0, 4, 6]);
        let op2 = r.pick(&[1, 1, 1, 3, 5, 7, 2, 2, 0, 4, 6]);
        let operation = [op1, 8, r.pick(&[7, 7, 3, 4, 0]), op2];
        p.li(0, value)
            .put(&[sys(operation, if r.chance(9) { 31 } else { 0 }), DSB]);
    }

    /// A register of translation, now and then another.
    fn register(&mut self, p: &mut Asm) {
        let asid = self.rng.below(4) << 48 | if self.rng.chance(4) { 0x0100 << 48 } else { 0 };
        let root = self.rng.pick(&self.roots);
        let toggles = 1 << 19 | if self.mapped { 0 } else { 1 };
        let level = self.rng.pick(&[1, 1, 1, 2, 3]);
        let (key, value) = match self.rng.below(14) {
            0..=4 => (TTBR0_EL1, root | asid),
            5 => (TTBR1_EL1, root | asid),
            6 => (
                TCR_EL1,
                self.tcr ^ self.rng.pick(&[0, 1 << 22, 1 << 23, 1 << 36, 1 << 32]),
            ),
            7 => (at_level(SCTLR_EL1, level), SCTLR_ON ^ (self.rng.next() & toggles)),
            8 => (at_level(MAIR_EL1, level), self.rng.next()),
            9 => (SCR_EL3, 0x500 | self.rng.below(2)),
            10 if !self.mapped => (HCR_EL2, self.rng.pick(&[0, 1 << 12, 1 << 27])),
            11 => (key(3, 0, 13, 0, 1), self.rng.next()),
            12 => (key(3, 3, 14, 3, 2), self.rng.next()),
            _ => (
                at_level(TTBR0_EL1, level),
                root | if level == 1 { asid } else { 0 },
            ),
        };
        p.set(key, value).put(&[mrs(self.rng.reg(), key)]);
        if self.rng.chance(2) {
            p.put(&[ISB]);
        }
    }

    /// AT, DC ZVA, and cache maintenance that does nothing.
    fn maintenance(&mut self, p: &mut Asm) {
        p.li(0, self.address());
        let at = [
            AT_S1E1R,
            AT_S1E1W,
            AT_S1E0R,
            [0, 7, 8, 3],
            [4, 7, 8, 0],
            [4, 7, 8, 5],
            [6, 7, 8, 1],
        ];
        let other = [
            DC_ZVA,
            DC_ZVA,
            DC_ZVA,
            [3, 7, 10, 1],
            [3, 7, 5, 1],
            [0, 7, 6, 1],
            [0, 7, 5, 0],
        ];
        if self.rng.chance(2) {
            p.put(&[sys(self.rng.pick(&at), 0), mrs(self.rng.reg(), PAR_EL1)]);
        } else {
            p.put(&[sys(self.rng.pick(&other), 0)]);
        }
    }

    fn exception(&mut self, p: &mut Asm) {
        let imm = self.rng.below(2) as u32;
        p.put(&[self.rng.pick(&[
            call(1, imm),
            call(1, imm),
            call(1, imm),
            call(2, imm),
            call(3, imm),
            brk(imm),
            0,
        ])]);
    }

    /// To EL0, or EL1 again with other masks: of EL1; elsewhere what the last exception left.
    fn level(&mut self, p: &mut Asm) {
        let spsr = self.rng.pick(&[0x3C5, 0x345, 0x3C0, 0x340, 0x3C0, 0x3C4]);
        let to_user = spsr & 0xC == 0;
        p.li(0, spsr)
            .put(&[msr(SPSR_EL1, 0)])
            .li(1, if to_user { ALIAS } else { 0 });
        // ADR X0, behind the ERET.
        p.put(&[0x1000_0000 | 4 << 5, add(0, 0, 1), msr(ELR_EL1, 0), ERET]);
    }

    /// A branch to any page, from which an abort comes back.
    fn away(&mut self, p: &mut Asm) {
        p.li(0, self.address() & !3)
            .put(&[0x1000_0000 | 2 << 5 | 28, br(0)]);
    }

    fn other(&mut self, p: &mut Asm) {
        // WFE, SEV, CLREX, DAIFSet, DAIFClr, MRS of CurrentEL and of the counter.
        let words = [
            0xD503_205F,
            SEV,
            CLREX,
            0xD503_42DF,
            0xD503_42FF,
            mrs(5, key(3, 0, 4, 2, 2)),
            mrs(6, key(3, 3, 14, 3, 2)),
        ];
        p.put(&[self.rng.pick(&words)]);
    }

    fn compute(&mut self, p: &mut Asm) {
        let r = &mut self.rng;
        let (d, n, m) = (r.reg(), r.reg(), r.reg());
        let word = match r.below(6) {
            0 => of_two(r.pick(&[0x8B, 0xCB, 0x8A, 0xAA, 0xCA, 0xAB, 0xEB, 0xEA]), d, n, m),
            1 => add_imm(d, n, r.below(0x1000) as u32),
            2 => 0x9B00_7C00 | m << 16 | n << 5 | d,
            3 => lsr(d, n, r.below(64) as u32),
            4 => 0x9A80_0000 | m << 16 | (r.below(16) as u32) << 12 | n << 5 | d,
            _ => 0x9AC0_0800 | m << 16 | n << 5 | d,
        };
        p.put(&[word]);
    }
}

/// Any load or store by X0.
pub fn any_access(r: &mut Rng) -> u32 {
    let (t, u) = (r.reg(), r.reg());
    let (size, opc) = (r.below(4) as u32, r.pick(&[0, 0, 0, 1, 1, 1, 2, 3]));
    let near = r.below(16) as u32;
    match r.below(20) {
        0..=7 => access(size, opc, t, 0, near >> 1),
        8..=9 => access_9(size, opc, 0, t, 0, near.wrapping_sub(8)),
        10 => access_9(size, opc, r.pick(&[1, 3]), t, 0, near.wrapping_sub(8)),
        11..=12 => access_9(size, opc, 2, t, 0, near.wrapping_sub(8)),
        13 => access_by(size, opc, t, 0, 31),
        14 => pair(r.chance(2), r.pick(&[1, 2, 3]), t, u, 0, near.wrapping_sub(8)),
        15 => r.pick(&[ldxr(size, t, 0), stxr(size, u, t, 0)]),
        16 => r.pick(&[ldar(size, t, 0), stlr(size, t, 0)]),
        17 => {
            exclusive_pair(r.chance(2), if r.chance(2) { 3 } else { 2 }, t, u, 0)
                | if r.chance(2) { 0 } else { 31 << 16 }
        }
        18 => ldr_literal(t, 16 + near as i32),
        // A register of 128 bits: two accesses.
        _ => 0x3D80_0000 | (r.below(2) as u32) << 22 | near << 10 | t,
    }
}
