// Written by tools/plain from crates/census/src/count.rt: change that.
//! The counts of a range, from the fresh answer of each page.

use crate::stage1::sysreg::regs::Regime;
use crate::stage1::walk::fresh::Fresh;
use crate::stage1::walk::regime::Bank;

/// Where a page is counted: by the status of its fault, by 64 plus the permission byte of its leaf, or flat.
#[inline]
fn place_of(end: Fresh) -> usize {
    match end {
        Fresh::Ended(Ok(leaf)) => 64 + usize::from(leaf.perms),
        Fresh::Ended(Err(status)) => usize::from(status),
        Fresh::Flat(_) => 128,
    }
}

/// Where the page is counted whose first address is va.
#[inline]
fn place_at(s: Bank, regime: Regime, va: u64, base: u64, ram: &[u8]) -> usize {
    place_of(s.fresh(regime, va, base, ram))
}

/// The counts of so many pages from the page of first, each by its own address: places 0 to 63 by status, 64 to 127 by
/// permission byte, 128 flat. Addresses wrap at 2^64.
#[inline]
pub fn count(
    s: Bank,
    regime: Regime,
    first: u64,
    pages: u64,
    base: u64,
    ram: &[u8],
    counts: &mut [u64; 129],
) {
    *counts = [0; 129];
    let start = first - first % 4096;
    for i in 0..pages {
        let page = start.wrapping_add(i.wrapping_mul(4096));
        counts[place_at(s, regime, page, base, ram)] += 1;
    }
}
