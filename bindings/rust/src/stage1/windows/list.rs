// Written by tools/plain from crates/windows/src/list.rt: change that.
//! A list of windows, decoded: all little-endian, a count of two bytes, that many first addresses of eight, and then
//! that many lengths in pages of two.

use crate::stage1::word::ram::{self, Width};

/// How many windows a list may have.
pub const MOST_WINDOWS: usize = 64;

/// How many pages a window may have.
pub const MOST_PAGES: usize = 16;

/// A window: pages of 4 KiB that lie side by side.
#[derive(Clone, Copy, PartialEq, Eq, Debug)]
pub struct Window {
    /// Its first address, on a page.
    pub start: u64,
    /// How many pages it has.
    pub pages: u64,
}

const NO_WINDOW: Window = Window { start: 0, pages: 0 };

/// Why a list is not right: the first reason that holds, in this order. The last three are of one window, and
/// are looked for window by window.
#[derive(Clone, Copy, PartialEq, Eq, Debug)]
pub enum Malformed {
    /// It has fewer than two bytes, or not two and ten for each window.
    Length,
    /// It counts more than 64 windows.
    Count,
    /// The window's first address is not on a page.
    Start(u64),
    /// The window has no page, or more than 16.
    Pages(u64),
    /// The window passes 2^64.
    End(u64),
}

/// A right list, decoded.
#[derive(Clone, Debug, PartialEq, Eq)]
pub struct WindowList {
    pub(crate) windows: [Window; MOST_WINDOWS],
    pub(crate) count: usize,
}

/// Why a window is not right, if it is not.
#[inline]
fn wrong(i: u64, w: Window) -> Option<Malformed> {
    if w.start % 4096 != 0 {
        Some(Malformed::Start(i))
    } else if w.pages == 0 || (MOST_PAGES as u64) < w.pages {
        Some(Malformed::Pages(i))
    } else if 0x10_0000_0000_0000 - w.start / 4096 < w.pages {
        Some(Malformed::End(i))
    } else {
        None
    }
}

/// How many windows a list has, where it is as long as they need.
#[inline]
fn counted(list: &[u8]) -> Result<u64, Malformed> {
    match ram::read(0, list, Width::Half, 0) {
        None => Err(Malformed::Length),
        Some(count) if (MOST_WINDOWS as u64) < count => Err(Malformed::Count),
        Some(count) if list.len() as u64 != 2 + 10 * count => Err(Malformed::Length),
        Some(count) => Ok(count),
    }
}

/// A window of a list of so many. Each read lies within the list.
#[inline]
fn window_at(list: &[u8], count: u64, i: u64) -> Window {
    Window {
        start: ram::read(0, list, Width::Double, 2 + 8 * i).unwrap_or(0),
        pages: ram::read(0, list, Width::Half, 2 + 8 * count + 2 * i).unwrap_or(0),
    }
}

impl WindowList {
    /// Decodes a list, or says why it is not right.
    #[inline]
    pub fn read(list: &[u8]) -> Result<WindowList, Malformed> {
        let count = counted(list)?;
        let mut windows = [NO_WINDOW; MOST_WINDOWS];
        for i in 0..count {
            let w = window_at(list, count, i);
            if let Some(why) = wrong(i, w) {
                return Err(why);
            }
            windows[i as usize] = w;
        }
        Ok(WindowList {
            windows,
            count: count as usize,
        })
    }

    /// The windows, in order.
    #[inline]
    pub fn windows(&self) -> &[Window] {
        &self.windows[..self.count]
    }
}
