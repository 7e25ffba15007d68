// Written by tools/plain from crates/tlb/src/hint.rt: change that.
//! Hints: pages that an access was allowed to, by raw page and exception level.

use crate::stage1::tlb::Tlb;
use crate::stage1::tlb::access::Kind;

/// Data hints for reads, and as many for writes.
pub const DATA_HINTS: usize = 256;

/// It matches no key.
pub const NO_HINT: Hint = Hint { key: u64::MAX, pa: 0 };

#[derive(Clone, Copy, Debug, PartialEq, Eq)]
pub struct Hint {
    /// The raw page's address, plus the level.
    pub key: u64,
    pub pa: u64,
}

#[derive(Clone, Copy, Debug, PartialEq, Eq)]
pub struct FetchHint {
    /// The raw page's address.
    pub page: u64,
    pub level: u8,
    pub pa: u64,
}

/// The address of an address's page.
#[inline]
fn page_of(va: u64) -> u64 {
    va & !0xFFF
}

/// The physical page pa, with the low twelve bits of va.
#[inline]
pub fn on_page(pa: u64, va: u64) -> u64 {
    pa | va & 0xFFF
}

/// A data hint's place: by page, with higher bits folded in. A fetch has none below 512.
#[inline]
pub fn data_slot(va: u64, kind: Kind) -> usize {
    let page = va >> 12;
    (kind as usize - 1) * DATA_HINTS + ((page ^ (page >> 5) ^ (page >> 10)) as usize & (DATA_HINTS - 1))
}

#[inline]
fn hint_key(va: u64, level: u8) -> u64 {
    page_of(va) + level as u64
}

impl Hint {
    /// The hint that an access to va, allowed to pa, leaves.
    #[inline]
    pub fn new(va: u64, level: u8, pa: u64) -> Self {
        Hint {
            key: hint_key(va, level),
            pa: page_of(pa),
        }
    }

    /// Where an access to va goes by the hint.
    #[inline]
    pub fn find(&self, level: u8, va: u64) -> Option<u64> {
        (self.key == hint_key(va, level)).then_some(on_page(self.pa, va))
    }
}

impl FetchHint {
    /// The hint that a fetch of va, allowed to pa, leaves.
    #[inline]
    pub fn new(va: u64, level: u8, pa: u64) -> Self {
        FetchHint {
            page: page_of(va),
            level,
            pa: page_of(pa),
        }
    }
}

impl Tlb {
    /// Where a fetch of va goes by the fetch hint.
    #[inline]
    pub fn by_fetch_hint(&self, level: u8, va: u64) -> Option<u64> {
        match self.fetch {
            Some(hint) if hint.page == page_of(va) && hint.level == level => Some(on_page(hint.pa, va)),
            _ => None,
        }
    }
}
