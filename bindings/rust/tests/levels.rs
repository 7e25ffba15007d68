//! The counters of each exception level.
mod common;

use a72::{Access, Core, LevelCounters, Ram, SystemOperation, Width, place};
use common::{BASE, bytes, core};

/// Hits and walks of EL0 to EL3.
fn pairs(core: &Core) -> [(u64, u64); 4] {
    core.counters().levels.map(|level| (level.hits, level.walks))
}

#[test]
fn an_access_counts_at_its_own_level() {
    let mut bytes = bytes();
    let ram = Ram::new(BASE, &mut bytes);
    let mut core = core();
    assert_eq!(pairs(&core), [(0, 0); 4]);
    // EL0 may not read page 1: a walk, then its entry.
    core.set_level(0).unwrap();
    assert!(core.load(&ram, 0x1000, Width::Byte).is_err());
    assert_eq!(pairs(&core), [(0, 1), (0, 0), (0, 0), (0, 0)]);
    assert!(core.load(&ram, 0x1000, Width::Byte).is_err());
    assert_eq!(pairs(&core), [(1, 1), (0, 0), (0, 0), (0, 0)]);
    // EL1, from the same entry, then by the hint.
    core.set_level(1).unwrap();
    assert!(core.load(&ram, 0x1000, Width::Byte).is_ok());
    assert_eq!(pairs(&core), [(1, 1), (1, 0), (0, 0), (0, 0)]);
    assert!(core.load(&ram, 0x1000, Width::Byte).is_ok());
    assert_eq!(pairs(&core), [(1, 1), (1, 0), (0, 0), (0, 0)]);
    // Judged as EL0's, and counted at EL1.
    core.set_unprivileged(true).unwrap();
    assert!(core.load(&ram, 0x1000, Width::Byte).is_err());
    assert_eq!(pairs(&core), [(1, 1), (2, 0), (0, 0), (0, 0)]);
    assert!(core.load(&ram, 0x2000, Width::Byte).is_err());
    assert_eq!(pairs(&core), [(1, 1), (2, 1), (0, 0), (0, 0)]);
    assert!(core.fetch(&ram, 0x1000).is_ok());
    assert_eq!(pairs(&core), [(1, 1), (3, 1), (0, 0), (0, 0)]);
    assert_eq!((core.counters().hits(), core.counters().walks()), (4, 2));
}

#[test]
fn what_counts_nothing() {
    let mut bytes = bytes();
    let mut ram = Ram::new(BASE, &mut bytes);
    let mut core = core();
    core.set_general(1, 0x1000).unwrap();
    core.system(&mut ram, SystemOperation::at_s1e1r(1)).unwrap();
    core.census(&ram, 0, 16).unwrap();
    core.system(&mut ram, SystemOperation::TLBI_VMALLE1).unwrap();
    assert_eq!(pairs(&core), [(0, 0); 4]);
    // A call that is refused.
    assert!(core.load_bytes(&ram, 0x1000, 3).is_err());
    assert_eq!(pairs(&core), [(0, 0); 4]);
}

#[test]
fn both_pages_of_a_split_access_count() {
    let mut bytes = bytes();
    let ram = Ram::new(BASE, &mut bytes);
    let mut core = core();
    core.load(&ram, 0x1FFC, Width::Double).unwrap();
    assert_eq!(pairs(&core), [(0, 0), (0, 2), (0, 0), (0, 0)]);
    core.set_level(0).unwrap();
    // The first page is not EL0's, so the second is not asked.
    assert!(core.load(&ram, 0x1FFC, Width::Double).is_err());
    assert_eq!(pairs(&core), [(1, 0), (0, 2), (0, 0), (0, 0)]);
}

#[test]
fn counters_and_sums_wrap() {
    let mut bytes = bytes();
    let ram = Ram::new(BASE, &mut bytes);
    let mut core = core();
    core.words_mut()[place::LEVEL_WALKS + 1] = u64::MAX;
    core.words_mut()[place::LEVEL_HITS] = u64::MAX;
    core.words_mut()[place::LEVEL_HITS + 3] = 2;
    core.translate(&ram, 0x1000, Access::Read).unwrap();
    let counters = core.counters();
    let el1 = LevelCounters { hits: 0, walks: 0 };
    assert_eq!(counters.levels[1], el1);
    assert_eq!((counters.hits(), counters.walks()), (1, 0));
}

/// Words 70 and 71 hold nothing: what a core is made of there does not stay.
#[test]
fn retired_words_do_not_matter() {
    let mut bytes = bytes();
    let ram = Ram::new(BASE, &mut bytes);
    let (mut plain, mut odd) = (core(), core());
    assert_eq!(plain.words()[70..72], [0, 0]);
    odd.words_mut()[70..72].fill(u64::MAX);
    for access in [Access::Read, Access::Write, Access::Fetch] {
        let answer = odd.translate(&ram, 0x1000, access);
        assert_eq!(answer, plain.translate(&ram, 0x1000, access));
    }
    assert_eq!(odd.words()[70..72], [0, 0]);
    assert!(odd == plain);
}
