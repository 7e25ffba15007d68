//! Lists of voice windows.
use super::{needed, DocCore, Mistake};
use crate::op::Ans;
use crate::Ram;
use std::collections::BTreeMap;

/// A window: the number of its first page, and how many it has.
struct Window {
    first: u64,
    pages: u64,
}

/// The number that these bytes are, the lowest first.
fn little_endian(bytes: &[u8]) -> u64 {
    bytes.iter().rev().fold(0, |n, b| 256 * n + u64::from(*b))
}

/// The pages in common: by physical page the windows that have it, in order.
type Owners = BTreeMap<u64, Vec<usize>>;

impl DocCore {
    /// The windows of a right list; `None` is the number 9.
    fn windows_of(&self, list: &[u8]) -> Option<Vec<Window>> {
        let count = little_endian(list.get(..2)?) as usize;
        let most = if self.makes(Mistake::WindowsCountOf65) {
            65
        } else {
            64
        };
        let due = 2 + 10 * count;
        let longer = list.len() > due && !self.makes(Mistake::WindowsLongerList);
        let none = count == 0 && self.makes(Mistake::WindowsEmptyRefused);
        if count > most || list.len() < due || longer || none {
            return None;
        }
        (0..count).map(|i| self.window(list, count, i)).collect()
    }

    fn window(&self, list: &[u8], count: usize, i: usize) -> Option<Window> {
        let (start, pages) = if self.makes(Mistake::WindowsInTurns) {
            (2 + 10 * i, 10 + 10 * i)
        } else {
            (2 + 8 * i, 2 + 8 * count + 2 * i)
        };
        let start = little_endian(&list[start..start + 8]);
        let pages = little_endian(&list[pages..pages + 2]);
        let end = u128::from(start) + 4096 * u128::from(pages);
        let top = (1 << 64) - u128::from(self.makes(Mistake::WindowsEndAtTopRefused));
        let most = if self.makes(Mistake::Windows17Pages) {
            17
        } else {
            16
        };
        let right = start % 4096 == 0 || self.makes(Mistake::WindowsAnyStart);
        (right && (1..=most).contains(&pages) && end <= top).then_some(Window {
            first: start / 4096,
            pages,
        })
    }

    /// The permission bit that is asked for: a privileged write's.
    fn windows_right(&self, regime: u32) -> u8 {
        if self.makes(Mistake::WindowsForRead) {
            return needed(1, false);
        }
        let all = regime == 1 && self.makes(Mistake::WindowsForEl0);
        let view = self.regs.user(2) && self.makes(Mistake::WindowsByView);
        needed(2, all || view)
    }

    /// The physical page of page `number` in a window that begins at `first`. The error is the status.
    fn frame(&mut self, ram: &Ram, regime: u32, first: u64, number: u64) -> Result<u64, u8> {
        if !self.regs.on(regime) {
            if self.makes(Mistake::WindowsFlatUntested) {
                return Ok(number);
            }
            return self.regs.flat(regime, number * 4096).map(|pa| pa / 4096);
        }
        let bare = if self.makes(Mistake::WindowsUntagsOnce) {
            let start = self.regs.untag(regime, first * 4096);
            start.wrapping_add((number - first) * 4096)
        } else {
            self.regs.untag(regime, number * 4096)
        };
        let cached = self.find(regime, bare >> 12);
        if let Some(e) = cached.filter(|_| self.makes(Mistake::WindowsFromCache)) {
            return Ok(e.pa / 4096);
        }
        if self.makes(Mistake::WindowsCountWalks) {
            self.count_walk(1);
        }
        let leaf = self.regs.walk(ram, regime, bare)?;
        if leaf.perms & self.windows_right(regime) == 0 {
            return Err(0x0C + leaf.level);
        }
        if self.makes(Mistake::WindowsOutsideFaults) && ram.get(leaf.oa, 1).is_none() {
            return Err(0x10);
        }
        let blocks = self.makes(Mistake::WindowsByBlock) && leaf.level < 3;
        Ok(leaf.oa / 4096 & if blocks { !511 } else { !0 })
    }

    /// Every window and page of it, in the order in which they are translated.
    fn places(&self, windows: &[Window]) -> Vec<(usize, u64)> {
        let of = |(i, w): (usize, &Window)| (0..w.pages).map(move |j| (i, j)).collect::<Vec<_>>();
        let mut all: Vec<(usize, u64)> = windows.iter().enumerate().flat_map(of).collect();
        if self.makes(Mistake::WindowsFaultByPage) {
            all.sort_by_key(|(i, j)| (*j, *i));
        }
        all
    }

    /// The first pair, if there is one: of each physical page the first two windows that have it.
    fn first_pair(&self, owners: &Owners) -> Ans {
        let two = |all: &Vec<usize>| {
            let mut all = all.clone();
            all.sort();
            if !self.makes(Mistake::WindowsMeetsItself) {
                all.dedup();
            }
            Some((*all.first()?, *all.get(1)?))
        };
        let pairs = owners.values().filter_map(two);
        let least = if self.makes(Mistake::WindowsBySecondNumber) {
            pairs.min_by_key(|(i, k)| (*k, *i))
        } else {
            pairs.min()
        };
        least.map_or(Ans::None, |(i, k)| Ans::Pair(i as u64, k as u64))
    }

    /// 1 and 2, then 9, then the first fault, then the first pair.
    pub(super) fn windows(&mut self, ram: &Ram) -> Ans {
        let (number, windows) = (self.ram_number(ram), self.windows_of(&ram.list));
        let early = windows.is_none() && self.makes(Mistake::WindowsListFirst);
        if let Some(n) = number.filter(|_| !early) {
            return Ans::Number(n);
        }
        let Some(windows) = windows else {
            return Ans::Number(9);
        };
        let regime = if self.makes(Mistake::WindowsAlwaysEl1) {
            1
        } else {
            self.regs.regime()
        };
        let mut owners = Owners::new();
        for (i, j) in self.places(&windows) {
            let Window { first, pages } = windows[i];
            match self.frame(ram, regime, first, first + j) {
                Ok(_) if j + 1 == pages && self.makes(Mistake::WindowsLastPageUnseen) => {}
                Ok(page) => owners.entry(page).or_default().push(i),
                Err(s) => match self.first_pair(&owners) {
                    pair @ Ans::Pair(..) if self.makes(Mistake::WindowsPairBeforeFault) => return pair,
                    _ => return Ans::Page(i as u64, j, s),
                },
            }
        }
        self.first_pair(&owners)
    }
}
