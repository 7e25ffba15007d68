//! A page census by pimu's own functions, page by page.
use crate::census::{Counts, End};
use pimu::aarch64::access::mmu;
use pimu::aarch64::{Cpu, Memory};

/// How a page ends in a regime with nothing cached.
#[inline(always)]
fn end<M: Memory + ?Sized>(c: &Cpu, m: &mut M, regime: u8, page: u64) -> End {
    if !mmu::is_on(c, regime) {
        return End::Flat;
    }
    match mmu::walk_leaf(c, m, regime, mmu::untagged(c, regime, page)) {
        Ok(leaf) => End::Rights(leaf.perms),
        Err(status) => End::Status(status),
    }
}

/// The counts of a range that is not refused are added to `counts`.
#[inline(always)]
pub fn census<M: Memory + ?Sized>(c: &Cpu, m: &mut M, first: u64, pages: u64, counts: &mut Counts) {
    let (regime, start) = (c.el.max(1) as u8, first & !0xFFF);
    for i in 0..pages {
        counts[end(c, m, regime, start + 4096 * i).place()] += 1;
    }
}
