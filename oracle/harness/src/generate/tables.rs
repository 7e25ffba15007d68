//! Page tables: one tree for each range and regime, and the pages mapped through them.
use super::Generator;

#[derive(Clone, Copy)]
pub struct Tree {
    pub regime: u32,
    pub upper: bool,
    pub root: u64,
    pub input: u32,
    pub granule: u32,
}

impl Tree {
    pub fn stride(&self) -> u32 {
        self.granule - 3
    }

    pub fn start(&self) -> u32 {
        4 - (self.input - self.granule).div_ceil(self.stride())
    }

    pub fn lsb(&self, level: u32) -> u32 {
        self.granule + self.stride() * (3 - level)
    }

    /// Bits that index the table of this level.
    fn width(&self, level: u32) -> u32 {
        if level == self.start() {
            self.input - self.lsb(level)
        } else {
            self.stride()
        }
    }

    /// Bytes of the first table.
    pub fn root_size(&self) -> u64 {
        8 << self.width(self.start())
    }

    /// Address bits within the granule.
    pub fn inside(&self) -> u64 {
        (1 << self.granule) - 1
    }
}

/// A page the accesses like to go to.
#[derive(Clone, Copy)]
pub struct Spot {
    pub tree: usize,
    pub va: u64,
    /// Where its leaf's descriptor is, and the descriptor.
    pub at: u64,
    pub desc: u64,
    pub level: u32,
}

/// Which page to map.
#[derive(Clone, Copy, PartialEq, Eq)]
pub enum Which {
    Any,
    /// Page 0 of a lower tree.
    First(usize),
    /// The last page of the upper tree.
    Last,
    /// The page after the last spot's.
    Next,
}

pub fn pa_bits(code: u64) -> u32 {
    [32, 36, 40, 42, 44, 44, 44, 44][code as usize & 7]
}

impl Generator {
    pub(super) fn alloc(&mut self, size: u64) -> Option<u64> {
        let size = size.max(64);
        let at = (self.free + size - 1) & !(size - 1);
        if at + size > self.base + self.len {
            return None;
        }
        self.free = at + size;
        Some(at)
    }

    /// A leaf's descriptor: mostly valid.
    pub(super) fn leaf(&mut self, level: u32, oa: u64) -> u64 {
        let r = &mut self.r;
        let mut d = oa & 0xFFFF_FFFF_F000;
        d |= r.below(8) << 2 | r.below(4) << 8;
        if !r.percent(4) {
            d |= 1;
        }
        if (level == 3) != r.percent(3) {
            d |= 2;
        }
        if !r.percent(6) {
            d |= 1 << 10;
        }
        for (b, p) in [
            (5, 30),
            (6, 55),
            (7, 30),
            (11, 50),
            (53, 25),
            (54, 25),
            (55, 10),
            (12, 3),
        ] {
            if r.percent(p) {
                d |= 1 << b;
            }
        }
        d
    }

    /// Where a leaf of this level points.
    pub(super) fn target(&mut self, tree: Tree, level: u32) -> u64 {
        let size = 1u64 << tree.lsb(level);
        let (base, len) = (self.base, self.len);
        let r = &mut self.r;
        let a = match r.below(20) {
            0 => base + len + r.below(0x4000),
            1 => 1 << pa_bits(self.ps[tree.regime as usize]).min(47),
            2 => r.word(),
            3..=5 => base + r.below((self.free - base).max(1)),
            6 => (base + len) & !0xFFF,
            7 => base & !0xFFF,
            _ => (self.free + r.below((base + len - self.free).max(1))) & !0xFFF,
        };
        a & !(size - 1)
    }

    /// A page, or one that shares its slot, its hint or its neighbourhood with another.
    fn any_page(&mut self, pages: u64) -> u64 {
        let r = &mut self.r;
        let n = self.spots.len() as u64;
        match r.below(10) {
            0 => 0,
            1 => pages - 1,
            2 if n > 0 => {
                let s = self.spots[r.below(n) as usize];
                ((s.va >> 12) + 1024 * (1 + r.below(3))) % pages
            }
            3 | 4 if n > 0 => {
                let s = self.spots[r.below(n) as usize];
                ((s.va >> 12) + r.of(&[1, pages - 1, 16])) % pages
            }
            5 if n > 0 => (self.spots[r.below(n) as usize].va >> 12) % pages,
            6 => (0x40000 + r.below(8)) % pages,
            7 => r.below(64),
            8 => 512 * r.below(4) + r.below(4),
            _ => r.below(pages),
        }
    }

    /// The level of the leaf, and the page: a block over RAM lets the address fall into the window.
    fn leaf_level(&mut self, tree: Tree, which: Which, page: u64) -> (u32, u64) {
        let r = &mut self.r;
        let start = tree.start();
        let level = if r.percent(70) || which != Which::Any {
            3
        } else {
            start + r.below(u64::from(4 - start)) as u32
        };
        if level < 3 && r.percent(70) {
            let size = 1u64 << (tree.lsb(level) - 12);
            if size <= 1 << (tree.input - 12) {
                let into = (self.base + r.below(self.len)) >> 12;
                return (level, (page & !(size - 1)) | (into & (size - 1)));
            }
        }
        (level, page)
    }

    pub(super) fn map_one(&mut self, which: Which) {
        let any = self.r.of(&[0, 0, 0, 1, 1, 2, 2, 2, 3, 4]);
        let ti = match which {
            Which::Any => any,
            Which::First(i) => i,
            Which::Last => 2,
            Which::Next => self.spots[self.spots.len() - 1].tree,
        };
        let tree = self.trees[ti];
        let pages = 1u64 << (tree.input - 12);
        let any = self.any_page(pages);
        let page = match which {
            Which::Any => any,
            Which::First(_) => 0,
            Which::Last => pages - 1,
            Which::Next => ((self.spots[self.spots.len() - 1].va >> 12) + 1) % pages,
        };
        let (leaf_level, page) = self.leaf_level(tree, which, page);
        let mut va = page << 12;
        if tree.upper {
            va |= !((1u64 << tree.input) - 1);
        }
        self.map_page(ti, va, leaf_level, matches!(which, Which::First(_)));
    }

    /// Write the tables down to the leaf's; stops early where a block is in the way.
    pub(super) fn map_page(&mut self, ti: usize, va: u64, leaf_level: u32, first: bool) {
        let tree = self.trees[ti];
        let mut table = tree.root;
        for level in tree.start()..4 {
            let at = table + 8 * (va >> tree.lsb(level) & ((1 << tree.width(level)) - 1));
            let old = self.mem.get(&at).copied().unwrap_or(0);
            if level == leaf_level || (old & 1 != 0 && (level == 3 || old & 2 == 0)) {
                let desc = self.map_leaf(tree, level, old, first);
                if old & 3 != 3 || level == 3 {
                    self.mem.insert(at, desc);
                    self.spots.push(Spot {
                        tree: ti,
                        va,
                        at,
                        desc,
                        level,
                    });
                }
                return;
            }
            table = if old & 3 == 3 {
                old & 0xFFFF_FFFF_F000 & !tree.inside()
            } else {
                let Some(t) = self.new_table(tree, at) else { return };
                t
            };
        }
    }

    fn map_leaf(&mut self, tree: Tree, level: u32, old: u64, first: bool) -> u64 {
        let mut oa = self.target(tree, level);
        if first && self.r.percent(30) {
            oa = (self.base + self.len) & !tree.inside();
        }
        if level < 3 && self.r.percent(80) {
            oa = self.base & !((1 << tree.lsb(level)) - 1);
        }
        if old & 1 != 0 && self.r.percent(80) {
            old
        } else {
            self.leaf(level, oa)
        }
    }

    fn new_table(&mut self, tree: Tree, at: u64) -> Option<u64> {
        let t = self.alloc(1 << tree.granule)?;
        let mut d = t | 3;
        for b in 59..=62 {
            if self.r.percent(8) {
                d |= 1 << b;
            }
        }
        if self.r.percent(2) {
            d |= 1 << 47;
        }
        self.mem.insert(at, d);
        Some(t)
    }
}
