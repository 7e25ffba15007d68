//! What carries faithfulness through a list: the cache's ASID is the registers'; behind each live entry stands an
//! uncovered walk of its page with its page, permissions, level, globality and ASID, and its regime is on; behind each
//! hint stands either a regime that is off and the untagged page, or an uncovered walk of the untagged page, global or
//! of the ASID in force, with that physical page and the bit that kind and level need.
use super::past::Past;
use crate::model::{needed, Regs};
use crate::state::Entry;
use crate::State;

/// Whether something stands behind a hint.
fn hint_backed(r: &Regs, past: &Past, level: u32, va: u64, pa: u64, kind: u8) -> bool {
    let regime = level.max(1);
    if !r.on(regime) {
        return r.flat(regime, va) == Ok(pa);
    }
    let need = needed(kind, level == 0);
    past.of(regime, r.untag(regime, va) >> 12)
        .iter()
        .any(|w| w.page == pa >> 12 && (w.global || w.asid == r.asid()) && w.perms & need != 0)
}

fn entry_backed(r: &Regs, past: &Past, e: &Entry) -> bool {
    let regime = (e.tag & 3) as u32;
    let same = (e.pa >> 12, e.perms, e.level, e.global, e.asid);
    let mut walks = past.of(regime, e.tag >> 2).iter();
    r.on(regime) && walks.any(|w| (w.page, w.perms, w.level, w.global, w.asid) == same)
}

/// The error names what nothing stands behind.
pub fn holds(s: &State, r: &Regs, past: &Past) -> Result<(), String> {
    if s.cache_asid != r.asid() {
        return Err(format!(
            "the cache's ASID {:x}: the registers' is {:x}",
            s.cache_asid,
            r.asid()
        ));
    }
    for (slot, key, pa) in &s.hints {
        let kind = if *slot < 256 { 1 } else { 2 };
        if !hint_backed(r, past, *key as u32 & 3, key & !0xFFF, *pa, kind) {
            return Err(format!("hint {slot:x} {key:x} {pa:x}"));
        }
    }
    if let Some((va, level, pa)) = s.fetch {
        if !hint_backed(r, past, level, va, pa, 4) {
            return Err(format!("fetch hint {va:x} {level} {pa:x}"));
        }
    }
    match s.entries.iter().find(|e| !entry_backed(r, past, e)) {
        Some(e) => Err(format!("entry {e:x?}")),
        None => Ok(()),
    }
}
