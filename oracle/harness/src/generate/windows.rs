//! Lists of voice windows over the pages that a scenario has: right ones, and each malformation by itself. They have
//! random numbers of their own and move nothing, so that a seed's other lines are what they are without them.
use super::{Generator, Rng};
use crate::op::{Line, Op};
use crate::windows::{encode, Piece, Window, MOST};

/// The bytes of a list in which one thing is wrong.
fn spoilt(r: &mut Rng, mut windows: Vec<Window>) -> Vec<u8> {
    if windows.is_empty() {
        return [&[][..], &[0], &[0, 0, 0], &[1, 0], &[0, 1], &[41, 0]][r.below(6) as usize].into();
    }
    let i = r.below(windows.len() as u64) as usize;
    let w = &mut windows[i];
    match r.below(12) {
        0 => w.start |= 1 << r.below(12),
        1 => w.start += 1 + r.below(0xFFF),
        2 => w.pages = 0,
        3 => w.pages = 17,
        4 => w.pages = r.of(&[0x100, 0x101, 0xFFFF, w.pages | 0x20]),
        // It passes 2^64 by a page.
        5 => w.start = (u64::from(w.pages) - 1).wrapping_mul(4096).wrapping_neg() & !0xFFF,
        6 => windows.resize(MOST + 1 + r.below(3) as usize, windows[i]),
        pick => {
            let mut bytes = encode(&windows);
            match pick {
                7 => bytes.truncate(bytes.len() - 1),
                8 => bytes.extend([0; 10].iter().take(1 + r.below(10) as usize)),
                9 => bytes[0] = bytes[0].wrapping_add(r.of(&[1, 0xFF])),
                10 => bytes[1] = r.of(&[1, 0x80]),
                _ => bytes.truncate(r.below(bytes.len() as u64) as usize),
            }
            return bytes;
        }
    }
    encode(&windows)
}

impl Generator {
    /// A list now and then, after an access.
    pub(super) fn glimpse(&mut self) {
        let hot = self.hot;
        std::mem::swap(&mut self.r, &mut self.lists);
        if self.r.percent(3) {
            let windows = self.windows_here();
            self.ask_windows(windows);
        }
        std::mem::swap(&mut self.r, &mut self.lists);
        self.hot = hot;
    }

    /// A list while the level is one that there is not.
    pub(super) fn glimpse_refused(&mut self) {
        std::mem::swap(&mut self.r, &mut self.lists);
        if self.r.percent(25) {
            let windows = vec![
                Window {
                    start: 0x1000,
                    pages: 1
                };
                self.r.below(3) as usize
            ];
            self.ask_windows(windows);
        }
        std::mem::swap(&mut self.r, &mut self.lists);
    }

    /// A list of these windows, now and then a wrong one.
    pub(super) fn ask_windows(&mut self, windows: Vec<Window>) {
        let bytes = if self.r.percent(12) {
            spoilt(&mut self.r, windows)
        } else {
            encode(&windows)
        };
        self.lines.extend(Piece::all(&bytes).map(Line::Bytes));
        self.op(Op::Windows);
    }

    /// Mostly few, so that most lists have no page that faults.
    pub(super) fn windows_here(&mut self) -> Vec<Window> {
        let n = self.r.of(&[0, 1, 2, 2, 2, 3, 3, 4, 5, 8]);
        (0..n).map(|_| self.window_here()).collect()
    }

    /// At a page that may be written, mostly, and in a block over more of its pages.
    fn window_here(&mut self) -> Window {
        let mut level = 3;
        let mut va = self.address();
        for _ in 0..4 {
            let Some(s) = self.spot() else { break };
            if s.desc & 0x481 == 0x401 && !self.r.percent(5) {
                (level, va) = (s.level, self.near(s));
                break;
            }
        }
        let pages = if level < 3 {
            1 + self.r.below(16)
        } else {
            self.r.of(&[1, 1, 1, 1, 2, 3])
        };
        // Under another tag, and as far down as 2^64 wants it.
        if self.r.percent(10) {
            va ^= self.r.below(256) << 56;
        }
        let most = pages.wrapping_mul(4096).wrapping_neg();
        Window {
            start: (va & !0xFFF).min(most),
            pages: pages as u16,
        }
    }
}
