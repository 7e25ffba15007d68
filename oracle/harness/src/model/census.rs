//! The page census.
use super::{DocCore, Mistake};
use crate::op::Ans;
use crate::Ram;

impl DocCore {
    /// How many pages there are from that of `first` on, up to 2^64.
    fn pages_from(&self, first: u64) -> u64 {
        let before = if self.makes(Mistake::CensusEndFromFirst) {
            first.div_ceil(4096)
        } else {
            first / 4096
        };
        (1 << 52) - before - u64::from(self.makes(Mistake::CensusNotToTop))
    }

    /// The numbers 1 and 2 of what looks at RAM.
    pub(super) fn ram_number(&self, ram: &Ram) -> Option<u8> {
        let past = |bytes: u64| ram.base.checked_add(bytes - 1).is_none();
        match ram.bytes.len() as u64 {
            _ if self.regs.level >= 4 => Some(1),
            bytes if bytes > 0 && past(bytes) => Some(2),
            _ => None,
        }
    }

    /// The number: 7 for more than 65,536 pages or a range that passes 2^64, after 1 and 2.
    fn census_number(&self, ram: &Ram, first: u64, pages: u64) -> Option<u8> {
        let range = || (pages > 65536 || pages > self.pages_from(first)).then_some(7);
        self.ram_number(ram).or_else(range)
    }

    /// EL0 has EL1's regime.
    fn census_regime(&self) -> u32 {
        let by_mark = self.regs.mark && self.makes(Mistake::CensusByMark);
        if by_mark || self.makes(Mistake::CensusAlwaysEl1) {
            1
        } else {
            self.regs.regime()
        }
    }

    /// The place of a page's count: the status of its walk, 64 plus the permission byte that it ends at, or 128 where
    /// stage 1 is off, but 0 of an address from 2^44 on. `bare` is untagged.
    fn count_of(&mut self, ram: &Ram, regime: u32, bare: u64) -> usize {
        if !self.regs.on(regime) {
            let large = bare >> 44 != 0 && !self.makes(Mistake::CensusFlatUntested);
            return if large || self.makes(Mistake::CensusFlatIsStatus0) {
                0
            } else {
                128
            };
        }
        let rights = if self.makes(Mistake::CensusRightsOneLow) {
            63
        } else {
            64
        };
        let cached = self.find(regime, bare >> 12);
        if let Some(e) = cached.filter(|_| self.makes(Mistake::CensusFromCache)) {
            return rights + usize::from(e.perms);
        }
        if self.makes(Mistake::CensusCountsWalks) {
            self.count_walk(1);
        }
        match self.regs.walk(ram, regime, bare) {
            Ok(leaf) => rights + usize::from(leaf.perms),
            Err(status) => status.into(),
        }
    }

    /// Pages by number: so the low twelve bits of the first address are dropped.
    pub(super) fn census(&mut self, ram: &Ram, first: u64, pages: u64) -> Ans {
        if let Some(n) = self.census_number(ram, first, pages) {
            return Ans::Number(n);
        }
        let regime = self.census_regime();
        let early = self.makes(Mistake::CensusStopsEarly);
        let number = first / 4096;
        let start = self.regs.untag(regime, number * 4096);
        let mut counts = Box::new([0; 129]);
        for i in 0..if early { pages.saturating_sub(1) } else { pages } {
            let bare = if self.makes(Mistake::CensusUntagsOnce) {
                start.wrapping_add(i * 4096)
            } else {
                self.regs.untag(regime, (number + i) * 4096)
            };
            counts[self.count_of(ram, regime, bare)] += 1;
        }
        Ans::Counts(counts)
    }
}
