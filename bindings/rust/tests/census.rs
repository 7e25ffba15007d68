//! The census: its counts and its refusals.
mod common;

use a72::{Access, Census, Check, MOST_PAGES, Ram, Rights, Status, Stop, place};
use common::{BASE, bytes, core};

/// A census with these counts by status and by permission byte, and all else 0.
fn counted(statuses: &[(usize, u64)], rights: &[(usize, u64)], flat: u64) -> Census {
    let mut census = Census {
        statuses: [0; 64],
        rights: [0; 64],
        flat,
    };
    statuses.iter().for_each(|(at, n)| census.statuses[*at] = *n);
    rights.iter().for_each(|(at, n)| census.rights[*at] = *n);
    census
}

#[test]
fn every_page_is_counted_once() {
    let mut bytes = bytes();
    let mut ram = Ram::new(BASE, &mut bytes);
    let mut core = core();
    core.translate(&ram, 0x1000, Access::Write).unwrap();
    let before = core.clone();
    // Page 0 is not mapped, nor page 3; page 2 is read-only; the low twelve bits say nothing.
    let six = core.census(&ram, 0xFFF, 6).unwrap();
    assert_eq!(six, counted(&[(7, 2)], &[(0x2C, 1), (0x3C, 3)], 0));
    assert_eq!((six.total(), six.mapped(), six.faults()), (6, 4, 2));
    assert_eq!(
        (six.with_status(Status(7)), six.with_status(Status(0xFF))),
        (2, 0)
    );
    assert_eq!(six.allowing(Rights::PRIVILEGED_READ), 4);
    assert_eq!(six.allowing(Rights::needed(Access::Write, false)), 3);
    assert_eq!(six.allowing(Rights::needed(Access::Read, true)), 0);
    // By the tables and not by the cache.
    ram.write_u64(BASE + 0x3008, 0);
    assert_eq!(core.census(&ram, 0x1000, 1), Ok(counted(&[(7, 1)], &[], 0)));
    assert_eq!(core.census(&ram, 0x1000, 0).map(|c| c.total()), Ok(0));
    let most = core.census(&ram, 0, MOST_PAGES).unwrap();
    assert_eq!((most.total(), most.mapped()), (MOST_PAGES, 3));
    assert!(core == before);
    core.set_level(3).unwrap();
    let flat = core.census(&ram, (1 << 44) - 1, 1).unwrap();
    assert_eq!(flat, counted(&[], &[], 1));
    assert_eq!(core.census(&ram, u64::MAX, 1), Ok(counted(&[(0, 1)], &[], 0)));
    assert_eq!(flat.allowing(Rights::PRIVILEGED_READ), 0);
}

/// Counts that no census gives are added up too.
#[test]
fn sums_of_any_counts() {
    let most = counted(&[(0, u64::MAX), (7, 1)], &[(8, u64::MAX), (9, u64::MAX)], 1);
    assert_eq!((most.total(), most.mapped()), (u64::MAX, u64::MAX));
    assert_eq!((most.faults(), most.allowing(Rights(8))), (u64::MAX, u64::MAX));
}

#[test]
fn refusals() {
    let mut bytes = bytes();
    let ram = Ram::new(BASE, &mut bytes);
    let mut core = core();
    let refused = |check| Err(Stop::Refused(check));
    assert_eq!(core.census(&ram, 0, MOST_PAGES + 1), refused(Check::Range));
    assert_eq!(core.census(&ram, u64::MAX, 2), refused(Check::Range));
    assert_eq!(Check::Range.number(), 7);
    let mut few = [0; 16];
    let past = Ram::new(u64::MAX - 14, &mut few);
    assert_eq!(core.census(&past, u64::MAX, 2), refused(Check::Window));
    core.words_mut()[place::LEVEL] = 4;
    assert_eq!(core.census(&past, u64::MAX, 2), refused(Check::Level));
}
