//! Odd values in every part of the core's state: hints and entries of the mapped pages that no walk made,
//! entries of other generations, wild counters.
use super::{Generator, Rng};
use crate::ffi::{LEVEL_WORDS, RETIRED};
use crate::op::Line;
use crate::place;
use crate::wild::Part;

/// A generation near the wrap, near the start, or anywhere.
fn generation(r: &mut Rng) -> u64 {
    match r.below(4) {
        0 => u64::from(u32::MAX) - r.below(3),
        1 => r.below(4),
        _ => r.word() & 0xFFFF_FFFF,
    }
}

impl Generator {
    fn put(&mut self, part: Part) {
        self.lines.push(Line::Put(part));
    }

    /// At the start of a scenario: any part of the state.
    pub(super) fn wild_core(&mut self) {
        self.wild_counters();
        for at in place::PENDING..=place::ABORT_PA {
            if self.r.percent(50) {
                let v = if at == place::PENDING {
                    self.r.below(4)
                } else {
                    self.r.wild()
                };
                self.put(Part::Word(at as u16, v));
            }
        }
        for _ in 0..self.r.below(8) {
            // None of SCTLR, TCR and the TTBRs: the scenario would seldom translate.
            let at = place::MAIR as u64 + self.r.below((place::LEVEL - place::MAIR) as u64);
            let v = self.r.wild();
            self.put(Part::Word(at as u16, v));
        }
        if self.r.percent(30) {
            let asid = self.r.of(&[0, 1, 2, 0x101, 0xFFFF]);
            self.put(Part::Word(place::ASID as u16, asid));
        }
        self.wild_cache(10 + self.level as usize * 10);
    }

    /// Any counters, those of the levels often about to wrap; and anything in the words that hold nothing.
    fn wild_counters(&mut self) {
        for at in RETIRED.chain(place::FLUSHES..=place::EPOCH).chain(LEVEL_WORDS) {
            if self.r.percent(50) {
                let v = match self.r.below(3) {
                    0 => u64::MAX - self.r.below(4),
                    _ => self.r.wild(),
                };
                self.put(Part::Word(at as u16, v));
            }
        }
    }

    /// Entries and hints of pages of every regime, as many as `n` of each.
    pub(super) fn wild_cache(&mut self, n: usize) {
        let level = self.level;
        let g = generation(&mut self.r);
        self.put(Part::Word(place::GENERATION as u16, g));
        for _ in 0..n {
            self.level = self.r.of(&[0, 0, 1, 1, 2, 3]);
            self.wild_entry(g);
            self.wild_hint();
        }
        if self.r.percent(50) {
            let va = self.address() & !0xFFF;
            let pa = self.wild_page();
            self.put(Part::Fetch(va, self.level, pa));
        }
        self.level = level;
    }

    /// A physical page: mostly in the window, now and then any number at all.
    fn wild_page(&mut self) -> u64 {
        let (base, len) = (self.base, self.len);
        match self.r.below(10) {
            0 => self.r.wild(),
            1 => (base + len) & !0xFFF,
            2 => self.base + self.r.below(len),
            _ => (self.base + self.r.below(len)) & !0xFFF,
        }
    }

    fn wild_entry(&mut self, present: u64) {
        let r = &mut self.r;
        let generation = match r.below(8) {
            0 => present.wrapping_add(1) & 0xFFFF_FFFF,
            1 => present.wrapping_add(2) & 0xFFFF_FFFF,
            2 => present.wrapping_sub(1) & 0xFFFF_FFFF,
            3 => generation(r),
            _ => present,
        };
        let bits = r.word() & 0x0000_FFFF_0001_FFFF;
        let (perms, level, asid) = (r.below(64), r.below(4) << 8, r.of(&[0, 1, 2, 0x101]) << 32);
        let bits = if r.percent(20) {
            bits
        } else {
            perms | level | bits & 1 << 16 | asid
        };
        let regime = if r.percent(10) {
            r.below(4)
        } else {
            u64::from(self.level.max(1))
        };
        let odd = r.percent(10);
        let page = self.address() >> 12;
        let tag = if odd { self.r.wild() } else { page << 2 | regime };
        let slot = if self.r.percent(10) {
            self.r.below(1024)
        } else {
            page % 1024
        };
        let pa = self.wild_page();
        self.put(Part::Entry(slot as u16, [tag, generation, bits, pa]));
    }

    fn wild_hint(&mut self) {
        let page = self.address() >> 12;
        let r = &mut self.r;
        let kind = r.below(2);
        let fold = (page ^ (page >> 5) ^ (page >> 10)) % 256;
        let slot = if r.percent(10) {
            r.below(512)
        } else {
            256 * kind + fold
        };
        let key = if r.percent(10) {
            r.wild()
        } else {
            page << 12 | u64::from(self.level)
        };
        let pa = self.wild_page();
        self.put(Part::Hint(slot as u16, key, pa));
    }
}
