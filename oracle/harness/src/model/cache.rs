//! The cache: entries, hints, their invalidation, and a translation through them.
use super::{needed, DocCore, Mistake};
use crate::state::Entry;
use crate::Ram;

/// What an invalidation drops.
#[derive(Clone, Copy, PartialEq, Eq, Debug)]
pub enum Inval {
    All,
    Page(u64),
    Asid(u16),
}

/// A counter's step; it wraps at 2^64.
pub fn up(counter: &mut u64) {
    *counter = counter.wrapping_add(1);
}

/// How many low bits of a 4 KiB page number lie inside a leaf of this level.
pub fn span(level: u8) -> u32 {
    match level {
        1 => 18,
        2 => 9,
        _ => 0,
    }
}

impl DocCore {
    pub(super) fn forget_hints(&mut self, keep: bool) {
        if !keep {
            self.hints.clear();
            self.fetch = None;
        }
        up(&mut self.epoch);
    }

    pub(super) fn flush(&mut self) {
        up(&mut self.flushes);
        let ended = self.generation;
        self.entries.retain(|_, (g, _)| *g > ended);
        self.generation = if ended == u32::MAX { 1 } else { ended + 1 };
        self.forget_hints(false);
    }

    /// Live entries stay live, all others go.
    pub(super) fn move_generation(&mut self, to: u32) {
        let present = self.generation;
        self.entries.retain(|_, (g, _)| *g == present);
        self.entries.values_mut().for_each(|(g, _)| *g = to);
        self.generation = to;
    }

    pub(super) fn invalidate(&mut self, what: Inval) {
        match what {
            _ if self.makes(Mistake::NeverInvalidates) => {}
            Inval::All => self.flush(),
            Inval::Page(page) => self.drop_page(page),
            Inval::Asid(a) => {
                self.entries.retain(|_, (_, e)| e.global || e.asid != a);
                self.forget_hints(self.makes(Mistake::AsidKeepsHints));
            }
        }
    }

    fn drop_page(&mut self, page: u64) {
        let one = self.makes(Mistake::PageDropsOnePage);
        let whole = self.makes(Mistake::PageComparesWholeTags);
        let present = self.generation;
        let before = self.entries.len();
        self.entries.retain(|_, (g, e)| {
            let low = if one { 0 } else { span(e.level) };
            let part = |page: u64| {
                if whole {
                    page >> low
                } else {
                    (page % (1 << 44)) >> low
                }
            };
            *g != present || part(e.tag / 4) != part(page)
        });
        if !self.makes(Mistake::DropsOnlyMatched) || self.entries.len() != before {
            up(&mut self.drops);
        }
        self.forget_hints(self.makes(Mistake::PageKeepsHints));
    }

    fn hint_slot(&self, kind: u8, page: u64) -> u16 {
        let second = if self.makes(Mistake::HintSlotOneFold) {
            0
        } else {
            page >> 10
        };
        256 * (u16::from(kind) / 2) + ((page ^ (page >> 5) ^ second) % 256) as u16
    }

    /// The error is the status.
    pub(super) fn translate(&mut self, ram: &Ram, kind: u8, va: u64) -> Result<u64, u8> {
        let marked = self.regs.mark && !self.makes(Mistake::HintsWhileUnprivileged);
        let hinted = kind != 4 && !marked;
        let page = va >> 12;
        let slot = self.hint_slot(kind, page);
        let key = page * 4096 + u64::from(self.regs.level);
        if hinted {
            if let Some((_, pa)) = self.hints.get(&slot).copied().filter(|h| h.0 == key) {
                if self.makes(Mistake::HintCountsHit) {
                    self.count_hit(kind);
                }
                return Ok(pa | (va % 4096));
            }
        }
        let answer = self.past_hints(ram, kind, va);
        let flat = !self.regs.on(self.regs.regime());
        if hinted && flat && answer.is_err() && self.makes(Mistake::FlatFaultDropsHint) {
            self.hints.remove(&slot);
        }
        let pa = answer?;
        let raw = flat && self.makes(Mistake::FlatHintOfRawPage);
        if hinted && !(flat && self.makes(Mistake::FlatSetsNoHint)) {
            self.hints.insert(slot, (key, if raw { va } else { pa } / 4096 * 4096));
        }
        Ok(pa)
    }

    fn past_hints(&mut self, ram: &Ram, kind: u8, va: u64) -> Result<u64, u8> {
        let regime = self.regs.regime();
        if !self.regs.on(regime) {
            return self.regs.flat(regime, va);
        }
        let bare = self.regs.untag(regime, va);
        let need = needed(kind, self.regs.user(kind));
        let e = match self.find(regime, bare >> 12) {
            Some(e) => {
                if e.perms & need != 0 || !self.makes(Mistake::EntryFaultNotCounted) {
                    self.count_hit_of(kind, &e);
                }
                self.repeat_reads_of(&e);
                e
            }
            None => {
                self.count_walk(kind);
                self.walk_into_cache(ram, regime, bare, need)?
            }
        };
        if e.perms & need == 0 {
            return Err(0x0C | e.level);
        }
        Ok(e.pa | (va % 4096))
    }

    pub(super) fn find(&self, regime: u32, page: u64) -> Option<Entry> {
        let (generation, e) = self.entries.get(&((page % 1024) as u16))?;
        let global = e.global && !self.makes(Mistake::GlobalByAsid);
        let ours = global || e.asid == self.asid || self.makes(Mistake::EveryAsidMatches);
        let named = e.tag == page * 4 + u64::from(regime);
        (*generation == self.generation && named && ours).then_some(*e)
    }

    fn walk_into_cache(&mut self, ram: &Ram, regime: u32, bare: u64, need: u8) -> Result<Entry, u8> {
        let mut reads = 0;
        let walked = self.regs.walk_counting(ram, regime, bare, &mut reads);
        self.reads += reads;
        let leaf = walked?;
        let page = bare >> 12;
        let e = Entry {
            slot: (page % 1024) as u16,
            tag: page * 4 + u64::from(regime),
            perms: leaf.perms,
            level: leaf.level,
            global: leaf.global,
            asid: self.asid,
            pa: leaf.oa / 4096 * 4096,
        };
        if leaf.perms & need != 0 || !self.makes(Mistake::PermissionFaultNotCached) {
            self.entries.insert(e.slot, (self.generation, e));
            self.walked.insert(e.slot, (self.regs.level as usize, reads));
        }
        Ok(e)
    }
}
