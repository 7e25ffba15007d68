//! What stands before a case: page tables, registers, and what the cache holds.
use crate::op::Op;
use crate::rust::RustCore;
use crate::{Core, Ram};
use pimu::aarch64::sysreg::key;

/// Where RAM begins, and its length.
pub const BASE: u64 = 0x4000_0000;
const LENGTH: usize = 0x20_0000;
/// The tables: the first of every walk, and the next ones.
const TABLES: [u64; 4] = [BASE + 0x1000, BASE + 0x2000, BASE + 0x3000, BASE + 0x4000];

/// A second last table.
const WIDER: u64 = BASE + 0x5000;

/// A page and a page whose walk takes its entry and its hints; and one that takes its hints alone.
pub const PAGE: u64 = 0x1234;

fn hint_place(page: u64) -> u64 {
    (page ^ page >> 5 ^ page >> 10) & 255
}

/// A page of [`PAGE`]'s entry and of its hints.
pub fn same_entry() -> u64 {
    let mut pages = (1..1 << 16).map(|i| PAGE ^ i << 10);
    pages.find(|&p| hint_place(p) == hint_place(PAGE)).unwrap()
}

/// A page of [`PAGE`]'s hints, with another entry.
pub fn same_hint() -> u64 {
    let mut pages = (1..1024).map(|i| PAGE ^ i);
    pages.find(|&p| hint_place(p) == hint_place(PAGE)).unwrap()
}

/// How a case begins.
#[derive(Clone)]
pub struct Scene {
    /// The levels of a walk that ends well: 2, 3 or 4.
    pub levels: usize,
    /// The last descriptor's bits beside the address.
    pub leaf: u64,
    pub level: u32,
    /// Whether stage 1 is on.
    pub on: bool,
    /// A page that is not mapped, with each one whose number ends alike.
    pub hole: Option<u64>,
    /// Whether a second last table maps the next 512 pages, from every other entry of the table above.
    pub wide: bool,
    /// Whether no descriptor of the first table is one.
    pub empty: bool,
    /// Whether all 1,024 entries are live.
    pub full: bool,
    /// X0 and X1.
    pub x: [u64; 2],
}

/// A page of the privileged level, accessed, global; and one for this ASID alone.
pub const GLOBAL: u64 = 0x403;
pub const LOCAL: u64 = 0xC03;
/// No descriptor.
pub const NOTHING: u64 = 0;

impl Default for Scene {
    fn default() -> Scene {
        Scene {
            levels: 3,
            leaf: GLOBAL,
            level: 1,
            on: true,
            hole: None,
            wide: false,
            empty: false,
            full: false,
            x: [PAGE << 12, PAGE << 12 | 8],
        }
    }
}

impl Scene {
    /// Every descriptor of a table leads to the next one, every one of the last to a page or block.
    fn tables(&self) -> Ram {
        let mut ram = Ram::of(BASE, (0..LENGTH).map(|i| (i / 3) as u8).collect());
        let last = self.levels - 1;
        for i in 0..512 {
            for level in 0..last {
                let table = if self.empty && level == 0 {
                    NOTHING
                } else {
                    TABLES[level + 1] | 3
                };
                ram.put(TABLES[level] + 8 * i, 8, table);
            }
            let leaf = match (self.leaf, self.levels) {
                (NOTHING, _) => 0,
                _ if self.hole.is_some_and(|page| page % 512 == i) => 0,
                // A block of 2 MiB.
                (bits, 2) => (BASE + ((i % 32) << 21)) | (bits & !2),
                (bits, _) => (BASE + (i << 12)) | bits,
            };
            ram.put(TABLES[last] + 8 * i, 8, leaf);
            if self.wide {
                ram.put(WIDER + 8 * i, 8, leaf + (512 << 12));
                if i % 2 == 1 {
                    ram.put(TABLES[last - 1] + 8 * i, 8, WIDER | 3);
                }
            }
        }
        ram
    }

    /// A core of this scene, and its RAM.
    pub fn build(&self) -> (RustCore, Ram) {
        let mut ram = self.tables();
        let mut core = RustCore::new();
        // 48 or 39 bits of address, pages of 4 KiB in both ranges, the largest output size.
        let tcr = if self.levels == 4 { 16 } else { 25 } | 2 << 30 | 5 << 32;
        for op in [
            Op::Reg(key(3, 0, 2, 0, 2), tcr),
            Op::Reg(key(3, 0, 2, 0, 0), TABLES[0]),
            Op::Reg(key(3, 0, 1, 0, 0), self.on as u64),
            Op::Level(1),
        ] {
            core.step(&op, &mut ram);
        }
        if self.full {
            for page in 0..1024 {
                core.step(&Op::Translate(1, page << 12), &mut ram);
            }
        }
        for (r, v) in self.x.into_iter().enumerate() {
            core.step(&Op::SetX(r as u32, v), &mut ram);
        }
        core.step(&Op::Level(self.level), &mut ram);
        (core, ram)
    }
}
