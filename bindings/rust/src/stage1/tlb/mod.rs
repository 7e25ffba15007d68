// Written by tools/plain from crates/tlb/src/lib.rt: change that.
//! The TLB of stage 1: what walks found, the hints of recent accesses, the counters, and what other cores are to drop.

use count::Tally;
use entry::Entry;
use hint::{FetchHint, Hint, NO_HINT};

pub mod access;
pub mod count;
pub mod entry;
pub mod fresh;
pub mod hint;
pub mod translate;
pub mod work;

const TLB_ENTRIES: usize = 1024;

/// What a TLBI drops.
#[derive(Clone, Copy, PartialEq, Eq, Debug)]
pub enum Inval {
    All,
    /// The 4 KiB page VA[55:12], in every regime and for every ASID.
    Page(u64),
    /// What is not global, for this ASID.
    Asid(u16),
}

/// Each counter wraps at 2^64.
#[derive(Clone, Debug, PartialEq, Eq)]
pub struct Tlb {
    /// An entry of another generation answers for nothing.
    pub(crate) generation: u32,
    /// The EL1&0 regime's ASID.
    pub(crate) asid: u16,
    /// Direct-mapped by page.
    pub(crate) entries: [Entry; TLB_ENTRIES],
    /// The page of the last fetch.
    pub(crate) fetch: Option<FetchHint>,
    /// Pages of data, direct-mapped by page: for reads in the first half, for writes in the other.
    pub(crate) hints: [Hint; 512],
    /// Hits and walks of EL0 to EL3.
    pub(crate) levels: [Tally; 4],
    /// Whole flushes, and pages that a TLBI dropped.
    pub(crate) flushes: u64,
    pub(crate) drops: u64,
    /// How often all hints were emptied.
    pub(crate) epoch: u64,
    /// Set by a broadcast TLBI: what the other cores' TLBs are to drop.
    pub(crate) broadcast: Option<Inval>,
}

impl Tlb {
    /// Empty, as after reset.
    #[inline]
    pub fn new() -> Self {
        Tlb {
            generation: 1,
            asid: 0,
            entries: [Entry::default(); TLB_ENTRIES],
            fetch: None,
            hints: [NO_HINT; 512],
            levels: [Tally::default(); 4],
            flushes: 0,
            drops: 0,
            epoch: 0,
            broadcast: None,
        }
    }

    /// Every hint out.
    #[inline]
    fn clear_hints(&mut self) {
        self.fetch = None;
        self.hints = [NO_HINT; 512];
        self.epoch = self.epoch.wrapping_add(1);
    }

    /// Everything out: the next generation. Where that count wraps, the entries are cleared and it is 1.
    #[inline]
    pub fn flush(&mut self) {
        self.flushes = self.flushes.wrapping_add(1);
        self.clear_hints();
        self.generation = self.generation.wrapping_add(1);
        if self.generation == 0 {
            self.entries = [Entry::default(); TLB_ENTRIES];
            self.generation = 1;
        }
    }

    /// What a TLBI asks for.
    #[inline]
    pub fn invalidate(&mut self, what: Inval) {
        match what {
            Inval::All => self.flush(),
            Inval::Page(page) => self.drop_page(page),
            Inval::Asid(asid) => self.drop_asid(asid),
        }
    }

    /// What translates the page VA[55:12] out, each block that covers it too, and every hint.
    #[inline]
    pub fn drop_page(&mut self, page: u64) {
        self.drops = self.drops.wrapping_add(1);
        let generation = self.generation;
        for e in self.entries.iter_mut() {
            e.drop_page(generation, page);
        }
        self.clear_hints();
    }

    /// Asks the other cores to drop it too, along with anything asked since they last looked: a second one that
    /// differs makes it All.
    #[inline]
    pub fn broadcast(&mut self, what: Inval) {
        let pending = self.broadcast;
        self.broadcast = Some(match pending {
            None => what,
            Some(earlier) if earlier == what => what,
            Some(_) => Inval::All,
        });
    }

    #[inline]
    fn slot(tag: u64) -> usize {
        (tag >> 2) as usize & (TLB_ENTRIES - 1)
    }

    /// The entry that answers for a tag.
    #[inline]
    pub fn get(&self, tag: u64) -> Option<Entry> {
        let e = self.entries[Self::slot(tag)];
        (e.tag == tag && e.generation == self.generation && (e.global || e.asid == self.asid)).then_some(e)
    }

    /// The EL1&0 regime's ASID is now asid: the entries stay, every hint goes.
    #[inline]
    pub fn retag(&mut self, asid: u16) {
        self.asid = asid;
        self.clear_hints();
    }

    /// What is not global and was walked for asid out, and every hint.
    #[inline]
    pub fn drop_asid(&mut self, asid: u16) {
        for e in self.entries.iter_mut() {
            e.drop_asid(asid);
        }
        self.retag(self.asid);
    }

    /// An entry into its slot, in the present generation.
    #[inline]
    pub fn put(&mut self, e: Entry) {
        self.entries[Self::slot(e.tag)] = Entry {
            generation: self.generation,
            ..e
        };
    }
}
