//! The memory of a random guest: tables of each regime, pages of every kind, vectors.
use crate::bus::DEVICE;
use crate::encode::*;
use crate::rng::Rng;
use crate::scene::*;

/// Where EL0 sees the code that EL1 sees at its own address.
pub const ALIAS: u64 = 0x2000_0000;
/// A root of 64 KiB tables has its table of level 3 here.
const TABLE_64K: u64 = BASE + 0x1F_0000;

/// What a random program may name.
pub struct World {
    pub scene: Scene,
    pub rng: Rng,
    /// Whether stage 1 is on throughout.
    pub mapped: bool,
    pub large: bool,
    pub tcr: u64,
    pub roots: Vec<u64>,
    pub pages: Vec<u64>,
    pub descriptors: Vec<u64>,
}

impl World {
    pub fn new(seed: u64) -> World {
        let mut rng = Rng::new(seed);
        let (mapped, large) = (!rng.chance(3), rng.chance(6));
        let size = rng.pick(&if large { [32; 4] } else { [25, 25, 30, 16] });
        let granule = if large { 1 << 14 } else { 0 };
        let mut world = World {
            scene: Scene::new(),
            mapped,
            large,
            tcr: size | granule | 2 << 30 | size.max(25) << 16,
            roots: Vec::new(),
            pages: Vec::new(),
            descriptors: Vec::new(),
            rng,
        };
        if world.rng.chance(3) {
            world.tcr |= 1 << 36; // ASIDs of 16 bits
        }
        if world.rng.chance(2) {
            world.tcr |= 3 << 37; // TBI0 and TBI1
        }
        if world.rng.chance(2) {
            world.tcr |= 1 << 23; // EPD1
        }
        for n in 0..4 {
            let root = if large { world.root_64k(n) } else { world.root_4k() };
            let top = world.scene.table();
            world.scene.bus.poke(top, root | 3);
            world.roots.push(if size == 16 { top } else { root });
        }
        for at in (FRAMES..TABLE_64K).step_by(8) {
            let value = world.rng.next();
            world.scene.bus.poke(at, value & 0x00FF_00FF_00FF_00FF);
        }
        for el in 1..4 {
            world.vectors(el);
        }
        world
    }

    /// A random leaf's attributes: mostly such as allow much.
    fn attributes(&mut self) -> u64 {
        let r = &mut self.rng;
        let mut leaf = if r.chance(12) { 0 } else { 1 << 10 };
        for bit in [NG, USER, READ_ONLY, PXN, UXN] {
            leaf |= if r.chance(2) { bit } else { 0 };
        }
        leaf | r.below(8) << 2 | r.below(4) << 8 | if r.chance(6) { 1 << 5 } else { 0 }
    }

    /// Where a leaf leads: a frame, seldom a device, nothing, or beyond the output size.
    fn output(&mut self) -> u64 {
        match self.rng.below(16) {
            0 => DEVICE,
            1 => 0x2000_0000,
            2 if self.rng.chance(3) => 1 << self.rng.pick(&[32, 36, 40, 47]),
            _ if self.large => FRAMES + self.rng.below(15) * 0x1_0000,
            _ => FRAMES + self.rng.below(24) * 0x1000,
        }
    }

    /// A random descriptor of level 3.
    pub fn leaf(&mut self) -> u64 {
        match self.rng.below(12) {
            0 => 0,
            1 => self.output() | 1 << 10 | 1,
            _ => self.output() | self.attributes() | 3,
        }
    }

    fn root_4k(&mut self) -> u64 {
        let nested = if self.rng.chance(3) { NG } else { 0 };
        let root = self.scene.table();
        self.scene.map_block(root, BASE, BASE | BLOCK | nested);
        self.scene
            .map_block(root, BASE + ALIAS, BASE | BLOCK | USER | READ_ONLY | nested);
        // The same slots of the TLB at three places, and a page far off.
        for va in [0x10_0000, 0x50_0000, 0x90_0000] {
            for i in 0..6 {
                let leaf = self.leaf();
                let at = self.scene.map(root, va + i * 0x1000, leaf);
                self.note(va + i * 0x1000, at);
            }
        }
        for va in [0xA0_0000, 0x6060_0000] {
            let block = BASE | self.attributes() | if self.rng.chance(8) { 0 } else { 1 };
            let at = self.scene.map_block(root, va, block);
            let inside = self.rng.below(0x1F) * 0x1_0000;
            self.note(va + inside, at);
            self.note(va + 0x10_0000, at);
        }
        // A block of level 1, tables with attributes, one outside RAM.
        let block = BASE | self.attributes() | 1;
        let at = root + 3 * 8;
        self.scene.bus.poke(at, block);
        self.note(0xC010_0000, at);
        let below = self.scene.descriptor(root, 0xE0_0000, 3);
        let upper = self.scene.descriptor(root, 0xE0_0000, 2);
        let limits = self.rng.below(16) << 59;
        let table = self.scene.bus.peek(upper) | limits;
        self.scene.bus.poke(upper, table);
        let leaf = self.leaf();
        self.scene.bus.poke(below, leaf);
        self.note(0xE0_0000, below);
        self.note(0xE0_0000, upper);
        let outside = self.scene.descriptor(root, 0x120_0000, 2);
        self.scene.bus.poke(outside, 0x2000_0000 | 3);
        self.note(0x120_0000, outside);
        root
    }

    fn root_64k(&mut self, n: u64) -> u64 {
        let root = self.scene.table();
        self.scene.bus.poke(root + 2 * 8, BASE | BLOCK);
        self.scene.bus.poke(root + 3 * 8, BASE | BLOCK | USER | READ_ONLY);
        self.scene.bus.poke(root, TABLE_64K | 3);
        for i in 0..8 {
            let at = TABLE_64K + (16 + i) * 8;
            if n == 0 {
                let leaf = self.leaf();
                self.scene.bus.poke(at, leaf);
            }
            self.note(0x10_0000 + i * 0x1_0000, at);
        }
        root
    }

    fn note(&mut self, va: u64, descriptor: u64) {
        self.pages.push(va);
        self.descriptors.push(descriptor);
    }

    /// Vectors that return; EL1's return from every second SVC of EL0 to EL1.
    fn vectors(&mut self, el: u32) {
        for group in [0x000, 0x200, 0x400] {
            let mut v = Asm::new(VECTORS[el as usize] + group);
            if el == 1 && group == 0x400 {
                let odd_svc = 0x5600_0001;
                v.put(&[mrs(29, ESR_EL1)])
                    .li(30, odd_svc)
                    .put(&[cmp(29, 30)])
                    .when(1, "other");
                v.li(29, 0x3C5)
                    .put(&[msr(SPSR_EL1, 29), mrs(30, ELR_EL1)])
                    .li(29, ALIAS);
                v.put(&[of_two(0xCB, 30, 30, 29), msr(ELR_EL1, 30), ERET])
                    .label("other");
            }
            v.put(&returns(el));
            self.scene.code(v);
            for interrupt in [0x80, 0x100] {
                self.scene
                    .bus
                    .code(VECTORS[el as usize] + group + interrupt, &[ERET]);
            }
        }
    }
}
