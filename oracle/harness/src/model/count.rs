//! The counters: hits and walks by exception level.
use super::cache::up;
use super::{DocCore, Mistake};
use crate::state::Entry;

impl DocCore {
    /// The level at which a translation of this kind is counted: the present one, whatever the mark.
    fn counted_at(&self, kind: u8) -> usize {
        let level = self.regs.level as usize;
        let marked = self.regs.mark && level == 1;
        let by_mark = if kind == 4 {
            Mistake::FetchCountedByMark
        } else {
            Mistake::CountedByMark
        };
        if marked && self.makes(by_mark) || self.makes(Mistake::CountedAtEl0) {
            0
        } else if self.makes(Mistake::CountedAtRegime) {
            level.max(1)
        } else if self.makes(Mistake::El3CountedAtEl2) {
            level.min(2)
        } else {
            level
        }
    }

    pub(super) fn count_hit(&mut self, kind: u8) {
        let level = self.counted_at(kind);
        up(&mut self.levels[level].hits);
    }

    /// A hit of this entry.
    pub(super) fn count_hit_of(&mut self, kind: u8, e: &Entry) {
        match self.walked.get(&e.slot) {
            Some((level, _)) if self.makes(Mistake::HitCountedAtWalk) => up(&mut self.levels[*level].hits),
            _ => self.count_hit(kind),
        }
    }

    pub(super) fn count_walk(&mut self, kind: u8) {
        let level = self.counted_at(kind);
        up(&mut self.levels[level].walks);
    }

    /// The mistake of reporting again what this entry's walk read.
    pub(super) fn repeat_reads_of(&mut self, e: &Entry) {
        match self.walked.get(&e.slot) {
            Some((_, reads)) if self.makes(Mistake::ReadsEntryRepeats) => self.reads += reads,
            _ => {}
        }
    }

    /// The mistake of counting what is done here at the regime's level, which differs from the present one at EL0.
    pub(super) fn at_regime<T>(&mut self, mistake: Mistake, done: impl FnOnce(&mut DocCore) -> T) -> T {
        let before = self.levels;
        let result = done(self);
        if self.makes(mistake) && self.regs.level == 0 {
            let after = self.levels[0];
            self.levels[0] = before[0];
            self.levels[1].hits = self.levels[1].hits.wrapping_add(after.hits.wrapping_sub(before[0].hits));
            self.levels[1].walks = self.levels[1].walks.wrapping_add(after.walks.wrapping_sub(before[0].walks));
        }
        result
    }
}
