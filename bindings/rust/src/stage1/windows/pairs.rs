// Written by tools/plain from crates/windows/src/pairs.rt: change that.
//! Which windows share a physical page.

use crate::stage1::windows::Pair;
use crate::stage1::windows::list::WindowList;
use crate::stage1::windows::pages::PhysicalPages;

/// Whether a page is among these.
#[inline]
fn has(pages: &[u64], page: u64) -> bool {
    // to the end, so that several can be compared at once
    pages.iter().fold(false, |found, y| found | (page == *y))
}

/// Whether two windows have a physical page in common.
#[inline]
fn meet(a: &[u64], b: &[u64]) -> bool {
    a.iter().any(|x| has(b, *x))
}

/// The first two windows that share a physical page, by lower number and then by higher.
#[inline]
pub fn first_pair(list: &WindowList, pages: &PhysicalPages) -> Option<Pair> {
    for i in 0..list.count {
        let a = &pages[i][..list.windows[i].pages as usize];
        for k in i + 1..list.count {
            let b = &pages[k][..list.windows[k].pages as usize];
            if meet(a, b) {
                return Some(Pair {
                    first: i as u64,
                    second: k as u64,
                });
            }
        }
    }
    None
}
