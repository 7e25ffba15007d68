// Written by tools/plain from crates/tlb/src/entry.rt: change that.
//! One entry: what a walk found for a page of a regime.

use crate::stage1::walk::level::Leaf;

/// A zeroed entry answers for no tag.
#[derive(Clone, Copy, Default, Debug, PartialEq, Eq)]
pub struct Entry {
    /// The untagged page times 4, plus the regime, which is never 0.
    pub tag: u64,
    pub generation: u32,
    /// Read, write and fetch: EL0's in bits 0 to 2, the regime's own in bits 3 to 5.
    pub perms: u8,
    pub level: u8,
    /// For every ASID, or for that of the walk only.
    pub global: bool,
    pub asid: u16,
    pub pa: u64,
}

/// The bits of VA[55:12].
const BITS: u64 = (1 << 44) - 1;

/// How many low bits of a page lie within a leaf of the level: 1 GiB, 2 MiB or one page.
#[inline]
fn span(level: u8) -> u64 {
    match level {
        1 => 18,
        2 => 9,
        _ => 0,
    }
}

impl Entry {
    /// The entry that a leaf becomes, under an ASID. `Tlb::put` sets its generation.
    #[inline]
    pub fn new(leaf: Leaf, asid: u16, tag: u64) -> Self {
        Entry {
            tag,
            generation: 0,
            perms: leaf.perms,
            level: leaf.level,
            global: leaf.global,
            asid,
            pa: leaf.oa & !0xFFF,
        }
    }

    /// After a Page: out if it is of the generation and translates the page.
    #[inline]
    pub fn drop_page(&mut self, generation: u32, page: u64) {
        let span = span(self.level);
        let own = self.tag >> 2 & BITS;
        if self.generation == generation && own >> span == (page & BITS) >> span {
            self.tag = 0;
        }
    }

    /// After an Asid: out if it was walked for the ASID and is not global.
    #[inline]
    pub fn drop_asid(&mut self, asid: u16) {
        if !self.global && self.asid == asid {
            self.tag = 0;
        }
    }
}
