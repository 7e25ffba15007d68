//! The walks that a core made and that no invalidation has covered since.
use crate::model::{Inval, Leaf};
use std::collections::BTreeMap;

#[derive(Clone, Copy)]
pub struct Walk {
    /// Physical page.
    pub page: u64,
    pub perms: u8,
    pub level: u8,
    pub global: bool,
    pub asid: u16,
}

impl Walk {
    pub fn new(leaf: &Leaf, asid: u16) -> Walk {
        Walk {
            page: leaf.oa >> 12,
            perms: leaf.perms,
            level: leaf.level,
            global: leaf.global,
            asid,
        }
    }

    /// Both end in a leaf with the same physical page, permissions and level.
    fn equals(&self, walk: &Result<Leaf, u8>) -> bool {
        matches!(walk, Ok(l) if (l.oa >> 12, l.perms, l.level) == (self.page, self.perms, self.level))
    }

    /// The covering of a walk of `page`.
    fn covered(&self, page: u64, by: Inval) -> bool {
        match by {
            Inval::All => true,
            Inval::Page(p) => {
                let low = [0, 18, 9, 0][self.level as usize];
                let part = |q: u64| (q & ((1 << 44) - 1)) >> low;
                part(page) == part(p)
            }
            Inval::Asid(a) => !self.global && self.asid == a,
        }
    }
}

/// By regime and untagged page.
#[derive(Default)]
pub struct Past(BTreeMap<(u32, u64), Vec<Walk>>);

impl Past {
    pub fn of(&self, regime: u32, page: u64) -> &[Walk] {
        self.0.get(&(regime, page)).map_or(&[], |w| w)
    }

    pub fn add(&mut self, regime: u32, page: u64, walk: Walk) {
        self.0.entry((regime, page)).or_default().push(walk);
    }

    pub fn clear(&mut self) {
        self.0.clear();
    }

    pub fn cover(&mut self, by: Inval) {
        self.0.retain(|(_, page), walks| {
            walks.retain(|w| !w.covered(*page, by));
            !walks.is_empty()
        });
    }

    /// Whether a walk of the page, global or of this ASID, differs from its walk now.
    pub fn excuses(&self, regime: u32, page: u64, asid: u16, now: &Result<Leaf, u8>) -> bool {
        self.of(regime, page)
            .iter()
            .any(|w| (w.global || w.asid == asid) && !w.equals(now))
    }
}
