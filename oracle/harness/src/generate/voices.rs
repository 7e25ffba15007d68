//! Lists of voice windows over tables of their own, at the end of a trace: windows that meet by an alias, under another
//! tag, in a block, by a page of 64 KiB, inside themselves; faults before and behind a pair; ends at 2^64; stale
//! entries. They have a stream of random numbers of their own, so what stands before is as it was.
use super::keys::{HCR, SCR, SCTLR, TCR, TTBR0, TTBR1};
use super::{Generator, Rng};
use crate::op::{Line, Op};
use crate::windows::{Window, MOST, PAGES};

const BASE: u64 = 0x4000_0000;
/// The tables: the first, in 4 KiB pages the second, the last.
const FIRST: u64 = BASE + 0x2000;
const SECOND: u64 = BASE + 0x1000;
const LAST: u64 = BASE + 0x10000;
/// Physical pages and blocks, outside RAM.
const POOL: u64 = 0x8000_0000;
const BLOCKS: u64 = 0xC000_0000;

/// The tables of 39 bits of address, which both ranges share.
#[derive(Clone, Copy)]
struct Tables {
    regime: u32,
    /// log2 of a page's bytes, and of a block's.
    page: u32,
    block: u32,
    /// How many pages are mapped at the last table's start, and at its end.
    mapped: u64,
    /// Whether tags are ignored, of the lower and the upper range.
    tags: [bool; 2],
}

impl Tables {
    /// The entries of a table.
    fn entries(&self) -> u64 {
        1 << (self.page - 3)
    }

    /// A window of so many pages, `skip` pages after the first of them.
    fn at(number: u64, skip: u64, pages: u64) -> Window {
        Window {
            start: number.wrapping_add(skip) << 12,
            pages: pages as u16,
        }
    }
}

impl Generator {
    pub(super) fn voices(&mut self, seed: u64) {
        let mut own = Rng::new(seed.rotate_left(32) ^ 64);
        std::mem::swap(&mut self.r, &mut own);
        let regime = 1 + self.r.below(3) as u32;
        let (page, block, mapped) = self.r.of(&[(12, 21, 24), (12, 21, 24), (16, 29, 6)]);
        let tags = [self.r.percent(50), self.r.percent(50)];
        let tables = Tables {
            regime,
            page,
            block,
            mapped,
            tags,
        };
        self.voice_tables(&tables);
        self.voice_registers(&tables);
        for _ in 0..4 + self.r.below(4) {
            self.voice_list(&tables);
        }
        self.op(Op::Mark(false));
        self.lines.push(Line::Window(self.base, self.len));
        std::mem::swap(&mut self.r, &mut own);
    }

    /// A leaf that a privileged store may use, mostly.
    fn voice_leaf(&mut self, oa: u64, kind: u64) -> u64 {
        let r = &mut self.r;
        let bits = r.below(2) << 6 | r.below(2) << 11 | r.below(8) << 2;
        match r.below(120) {
            0 => 0,
            1 => oa | bits | 0x480 | kind,
            2 => oa | bits | kind,
            _ => oa | bits | 0x400 | kind,
        }
    }

    fn voice_tables(&mut self, t: &Tables) {
        let last = t.entries() - 1;
        let mut writes = Vec::new();
        // Of 64 KiB pages the first table leads to the last.
        let above = if t.page == 12 {
            writes.extend([(FIRST, SECOND | 3), (FIRST + 8 * last, SECOND | 3)]);
            SECOND
        } else {
            FIRST
        };
        let top = if t.page == 12 { last } else { 1023 };
        writes.extend([(above, LAST | 3), (above + 8 * top, LAST | 3)]);
        for i in 1..3 {
            // Often one block twice.
            let oa = BLOCKS + (self.r.below(2) * (i - 1) << t.block);
            writes.push((above + 8 * i, self.voice_leaf(oa, 1)));
        }
        for i in (0..t.mapped).chain(last + 1 - t.mapped..=last) {
            let place = if self.r.percent(20) {
                self.r.below(t.mapped)
            } else {
                i
            };
            writes.push((LAST + 8 * i, self.voice_leaf(POOL + (place << t.page), 3)));
        }
        if self.r.percent(50) {
            self.lines.push(Line::Fresh);
        }
        self.lines.extend([Line::Window(BASE, 0x20000), Line::Zero]);
        self.lines
            .extend(writes.into_iter().map(|(at, d)| Line::Poke(at, d)));
    }

    fn voice_registers(&mut self, t: &Tables) {
        let r = &mut self.r;
        let (low, high) = if t.page == 12 { (0, 2) } else { (1, 3) };
        let [lower, upper] = t.tags.map(u64::from);
        let tcr = match t.regime {
            1 => 25 | low << 14 | 25 << 16 | high << 30 | 5 << 32 | lower << 37 | upper << 38,
            _ => 25 | low << 14 | 5 << 16 | lower << 20,
        };
        let on = !r.percent(10) as u64;
        let level = match t.regime {
            1 => r.below(2) as u32,
            regime => regime,
        };
        let marked = r.percent(30);
        self.op(Op::Level(3));
        for (k, v) in [
            (SCR, 1),
            (HCR, 0),
            (TCR[t.regime as usize], tcr),
            (TTBR0[t.regime as usize], FIRST),
            (TTBR1, FIRST),
            (SCTLR[t.regime as usize], on),
        ] {
            self.reg(k, v);
        }
        self.op(Op::Level(level));
        self.op(Op::Mark(marked));
    }

    fn voice_list(&mut self, t: &Tables) {
        let mut windows = Vec::new();
        match self.r.below(12) {
            0 => windows = self.many(t),
            1 => windows = self.flat(),
            _ => {
                let n = self.r.of(&[0, 1, 2, 2, 3, 3, 4, 5, 6, 8, 16]);
                for _ in 0..n {
                    let w = self.voice(t, &windows);
                    windows.push(w);
                }
            }
        }
        if self.r.percent(30) {
            self.stale(t, &windows);
        }
        self.ask_windows(windows);
    }

    /// One window, by itself or beside one before it.
    fn voice(&mut self, t: &Tables, before: &[Window]) -> Window {
        let pages = self.r.of(&[1, 1, 1, 2, 2, 3, 4, 8, 16]);
        let mapped = t.mapped << (t.page - 12);
        let block = 1 << (t.block - 12);
        let r = &mut self.r;
        match r.below(30) {
            0..=8 => Tables::at(0, r.below(mapped - pages + 1), pages),
            9..=13 => Tables::at(block, r.below(block - pages + 1), pages),
            14..=17 => Tables::at(2 * block, r.below(block - pages + 1), pages),
            // The last pages of all, often up to 2^64.
            18..=20 if t.regime == 1 => {
                let free = r.below(2) * r.below(mapped - pages + 1);
                Tables::at((1 << 52) - free - pages, 0, pages)
            }
            // Across the end of the mapped pages, of a block, and of a range under some tag.
            21 => Tables::at(r.of(&[mapped, block, 2 * block, 3 * block]) - 1, 0, pages),
            22 | 23 if pages > 1 => Tables::at((r.below(255) + 1) << 44, u64::MAX, pages),
            _ if before.is_empty() => Tables::at(0, 0, pages),
            _ => {
                let w = r.of(before);
                self.beside(t, w, pages)
            }
        }
    }

    /// A window that shares pages with this one: the same addresses, another tag, the other range or block.
    fn beside(&mut self, t: &Tables, w: Window, pages: u64) -> Window {
        let shift = self.r.below(u64::from(w.pages));
        let start = w.start + 4096 * shift;
        let upper = usize::from(start >> 55 & 1 == 1 && t.regime == 1);
        let start = match self.r.below(20) {
            0 => start ^ self.r.below(256) << 56,
            1..=4 if t.tags[upper] => start ^ self.r.below(256) << 56,
            5..=8 if t.regime == 1 => start.wrapping_sub(1 << t.block),
            9..=12 if matches!(start >> t.block, 1 | 2) => start ^ 3 << t.block,
            _ => start,
        };
        Window {
            start: start.min(pages.wrapping_mul(4096).wrapping_neg()),
            pages: pages as u16,
        }
    }

    /// As many windows of as many pages as there are, in blocks; often one that shares with another.
    fn many(&mut self, t: &Tables) -> Vec<Window> {
        let most = PAGES as u64;
        let mut all: Vec<Window> = (0..MOST as u64)
            .map(|i| Tables::at(1 << (t.block - 12), most * i, most))
            .collect();
        if self.r.percent(60) {
            let (i, k) = (self.r.below(63), self.r.below(64));
            all[k as usize].start = all[i as usize].start + (4096 * self.r.below(most));
        }
        all
    }

    /// Stage 1 off: about 2^44, with tags and without.
    fn flat(&mut self) -> Vec<Window> {
        let regime = 1 + self.r.below(3);
        self.op(Op::Level(3));
        self.reg(SCTLR[regime as usize], 0);
        let level = self.r.of(&[regime, regime & !1]);
        self.op(Op::Level(level as u32));
        let n = self.r.of(&[1, 2, 3, 6]);
        let mut all = Vec::new();
        for _ in 0..n {
            let r = &mut self.r;
            let tag = r.below(2) * r.below(256) << 44;
            let pages = r.of(&[1, 1, 2, 16]);
            let near = [r.below(4), (1 << 32) - r.below(20), (1 << 32) - 16];
            let number = r.of(&near);
            all.push(Tables::at(number + tag, 0, pages));
        }
        all
    }

    /// A page of a window written and its descriptor changed, without a TLBI.
    fn stale(&mut self, t: &Tables, windows: &[Window]) {
        if windows.is_empty() {
            return;
        }
        let w = self.r.of(windows);
        let i = self.r.below(t.mapped);
        let (oa, kind) = (POOL + (self.r.below(t.mapped) << t.page), 3);
        let d = self.voice_leaf(oa, kind);
        self.op(Op::Translate(2, w.start));
        self.op(Op::Translate(2, i << t.page));
        self.lines.push(Line::Poke(LAST + 8 * i, d));
    }
}
