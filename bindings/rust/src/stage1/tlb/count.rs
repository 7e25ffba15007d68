// Written by tools/plain from crates/tlb/src/count.rt: change that.
//! Hits and walks, by exception level.

use crate::stage1::tlb::Tlb;

/// Answers from entries, and walks.
#[derive(Clone, Copy, Default, Debug, PartialEq, Eq)]
pub struct Tally {
    pub hits: u64,
    pub walks: u64,
}

/// The place of a level's tally: a level has two bits.
#[inline]
pub fn level_place(level: u8) -> usize {
    (level & 3) as usize
}

impl Tlb {
    #[inline]
    pub fn count_hit(&mut self, level: u8) {
        let tally = &mut self.levels[level_place(level)];
        tally.hits = tally.hits.wrapping_add(1);
    }

    #[inline]
    pub fn count_walk(&mut self, level: u8) {
        let tally = &mut self.levels[level_place(level)];
        tally.walks = tally.walks.wrapping_add(1);
    }
}
