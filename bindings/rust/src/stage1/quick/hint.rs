// Written by tools/plain from crates/quick/src/hint.rt: change that.
//! Where a hint sends an access at once. Kind, level, mark, window and key are one condition, so that few jumps are
//! taken, and what only the rest of a call needs is laid out there.

use crate::stage1::cpu::Core;
use crate::stage1::tlb::access::Kind;
use crate::stage1::tlb::hint;
use crate::stage1::tlb::hint::{FetchHint, Hint};

#[inline(always)]
fn hint_at(core: &Core, slot: usize) -> Hint {
    core.tlb.hints[slot]
}

/// By a kind's number, 1 read or 2 write: nothing where a check or the kind has to be asked by name.
#[inline(always)]
pub(crate) fn served(core: &Core, va: u64, kind: u64, base: u64, len: u64) -> Option<u64> {
    // level and mark in one number: at most 3 where the level is known and nothing is marked
    let asker = core.privilege.level as u64 + (core.privilege.unprivileged as u64) * 256;
    let slot = hint::data_slot(va, Kind::Read) + (kind / 2 % 2) as usize * hint::DATA_HINTS;
    let found = hint_at(core, slot);
    let serves = ((kind == 1) | (kind == 2))
        & ((found.key == va - va % 4096 + asker) & ((asker <= 3) & (base <= u64::MAX - len)));
    serves.then_some(hint::on_page(found.pa, va))
}

/// A data hint's place by a kind's number, 1 read or 2 write: the page is folded as it stands in the address, and its
/// bits are cut once, with the kind's above them.
#[inline(always)]
fn place(va: u64, kind: u64) -> usize {
    let folded = va ^ (va >> 5) ^ (va >> 10);
    ((folded % 1048576 + kind / 2 % 2 * 1048576) / 4096) as usize
}

/// The same for the core of a number among four: nothing, too, where it has something pending, or the number is of no
/// core. One condition here too, and fewer words in it, so that what is asked more costs little: the number is looked
/// at with the level.
#[inline(always)]
pub fn served_among(core: &Core, n: u64, va: u64, kind: u64, base: u64, len: u64) -> Option<u64> {
    let mark = core.privilege.unprivileged as u64;
    let asker = core.privilege.level as u64 + mark * 256;
    let found = hint_at(core, place(va, kind));
    let serves = core.tlb.broadcast.is_none()
        & (((kind == 1) | (kind == 2))
            & ((found.key == va - va % 4096 + asker) & (((asker | n) <= 3) & (base <= u64::MAX - len))));
    serves.then_some(hint::on_page(found.pa, va))
}

/// Where there is no fetch hint: its page is no address's.
const NO_FETCH_HINT: FetchHint = FetchHint {
    page: 1,
    level: 0,
    pa: 0,
};

/// The fetch hint by its address, so that whether there is one takes no jump.
#[inline(always)]
fn fetch_hint(core: &Core) -> &FetchHint {
    match &core.tlb.fetch {
        Some(found) => found,
        None => &NO_FETCH_HINT,
    }
}

/// By the fetch hint: nothing where a check has to be asked by name.
#[inline(always)]
pub(crate) fn fetch_served(core: &Core, va: u64, base: u64, len: u64) -> Option<u64> {
    let level = core.privilege.level;
    let found = fetch_hint(core);
    let serves =
        ((found.page == va - va % 4096) & (found.level == level)) & ((level <= 3) & (base <= u64::MAX - len));
    serves.then_some(hint::on_page(found.pa, va))
}
