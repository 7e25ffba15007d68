//! Windows: the first two that have a physical page in common, the first page that faults, and what is no list.
#[path = "common/chance.rs"]
mod chance;
mod common;

use a72::{
    Access, Check, Core, Level, Malformed, PageFault, Ram, Status, Stop, SystemOperation, WindowList,
    WindowsError, place, registers,
};
use chance::chance;
use common::{BASE, bytes, core};

type Found = Result<Option<(usize, usize)>, WindowsError>;

/// Windows of these first addresses and pages.
fn list(windows: &[(u64, u64)]) -> WindowList {
    let mut list = WindowList::new();
    for (start, pages) in windows {
        list.push(*start, *pages).unwrap();
    }
    list
}

fn fault(window: usize, page: usize, status: u8) -> Found {
    let status = Status(status);
    Err(WindowsError::Page(PageFault { window, page, status }))
}

/// Pages 16 to 47 at their own frames, but for page 20, which is page 19's.
fn map(ram: &mut Ram) {
    for page in 16..48 {
        let frame = if page == 20 { 19 } else { page };
        ram.write_u64(BASE + 0x3000 + 8 * page, (BASE + (frame << 12)) | 0x403);
    }
}

#[test]
fn the_first_pair_by_lower_and_then_higher_number() {
    let mut bytes = bytes();
    let mut ram = Ram::new(BASE, &mut bytes);
    map(&mut ram);
    let mut core = core();
    core.translate(&ram, 0x1000, Access::Write).unwrap();
    let before = core.clone();
    let found = |windows: &[(u64, u64)]| core.windows(&ram, &list(windows)).unwrap();
    assert_eq!(found(&[]), None);
    assert_eq!(found(&[(0x10000, 4), (0x15000, 11), (0x20000, 16)]), None);
    // Windows 0 and 4, and 1 and 3.
    let five = [
        (0x10000, 2),
        (0x20000, 3),
        (0x28000, 1),
        (0x22000, 1),
        (0x11000, 1),
    ];
    assert_eq!(found(&five), Some((0, 4)));
    // Window 1 with 2 by its last page, with 3 by its second.
    let four = [(0x10000, 1), (0x20000, 3), (0x22000, 1), (0x21000, 1)];
    assert_eq!(found(&four), Some((1, 2)));
    // By alias; one within one window is no pair.
    assert_eq!(found(&[(0x13000, 1), (0x14000, 1)]), Some((0, 1)));
    assert_eq!(found(&[(0x13000, 2), (0x20000, 1)]), None);
    // A page outside RAM is one too.
    assert_eq!(found(&[(0x4000, 1), (0x10000, 1), (0x4000, 1)]), Some((0, 2)));
    assert!(core == before && core.report().reads == 3);
    // By the tables and not by the cache.
    ram.write_u64(BASE + 0x3008, (BASE + 0x10000) | 0x403);
    assert_eq!(
        core.windows(&ram, &list(&[(0x1000, 1), (0x10000, 1)])),
        Ok(Some((0, 1)))
    );
}

#[test]
fn the_first_page_that_faults_by_window_and_then_page() {
    let mut bytes = bytes();
    let mut ram = Ram::new(BASE, &mut bytes);
    map(&mut ram);
    let mut core = core();
    let found = |core: &Core, windows: &[(u64, u64)]| core.windows(&ram, &list(windows));
    // Windows 0 and 2 are one; page 2 may only be read, page 3 is not mapped.
    let beside = [(0x10000, 1), (0x1000, 2), (0x10000, 1)];
    assert_eq!(found(&core, &beside), fault(1, 1, 0x0F));
    assert_eq!(found(&core, &[(0x2F000, 2), (0x2000, 1)]), fault(0, 1, 7));
    assert_eq!(found(&core, &[(0x10000, 1), (1 << 30, 1)]), fault(1, 0, 5));
    // At EL0, and marked, as the regime's own level writes.
    core.set_unprivileged(true).unwrap();
    assert_eq!(found(&core, &beside), fault(1, 1, 0x0F));
    core.set_unprivileged(false).unwrap();
    core.set_level(Level::EL0).unwrap();
    assert_eq!(found(&core, &beside), fault(1, 1, 0x0F));
    assert_eq!(found(&core, &[(0x13000, 1), (0x14000, 1)]), Ok(Some((0, 1))));
    // At EL3 stage 1 is off; a window may end at 2^64.
    core.set_level(Level::EL3).unwrap();
    assert_eq!(found(&core, &[(0x13000, 1), (0x14000, 1)]), Ok(None));
    assert_eq!(
        found(&core, &[(0x1000, 3), (u64::MAX - 0xFFF, 1)]),
        fault(1, 0, 0)
    );
}

/// The physical page is what counts, by whichever table and under whichever tag it is reached.
#[test]
fn a_page_through_a_block_and_under_a_tag() {
    let mut bytes = bytes();
    let mut ram = Ram::new(BASE, &mut bytes);
    map(&mut ram);
    // A block of 2 MiB, which holds page 16's frame too.
    ram.write_u64(BASE + 0x2008, BASE | 0x401);
    let mut core = core();
    let by_block = list(&[(0x10000, 1), (0x21_0000, 1)]);
    assert_eq!(core.windows(&ram, &by_block), Ok(Some((0, 1))));
    let tagged = list(&[
        (0x10000, 1),
        (0x5500_0000_0000_F000, 2),
        (0x7700_0000_0001_0000, 1),
    ]);
    assert_eq!(core.windows(&ram, &tagged), fault(1, 0, 4));
    ram.write_u64(BASE + 0x3000 + 8 * 15, (BASE + 0xF000) | 0x403);
    core.write_register(registers::TCR_EL1, 25 | 2 << 30 | 1 << 37)
        .unwrap();
    assert_eq!(core.windows(&ram, &tagged), Ok(Some((0, 1))));
}

/// The number of windows, where each begins, and then the pages of each.
#[test]
fn a_list_is_its_bytes() {
    let made = list(&[(0x8877_6655_4433_2000, 1), (u64::MAX - 0xFFF, 1), (0, 16)]);
    #[rustfmt::skip]
    let bytes = [
        3, 0,
        0x00, 0x20, 0x33, 0x44, 0x55, 0x66, 0x77, 0x88,
        0x00, 0xF0, 0xFF, 0xFF, 0xFF, 0xFF, 0xFF, 0xFF,
        0, 0, 0, 0, 0, 0, 0, 0,
        1, 0, 1, 0, 16, 0,
    ];
    assert_eq!(
        (made.as_bytes(), made.len(), made.is_empty()),
        (&bytes[..], 3, false)
    );
    assert_eq!(WindowList::from_bytes(&bytes), Ok(made));
    let none = WindowList::new();
    assert_eq!(
        (none.as_bytes(), none.len(), none.is_empty()),
        (&[0, 0][..], 0, true)
    );
    assert_eq!(format!("{none:?}"), "WindowList([0, 0])");
}

/// Of bytes that are no list, and of a window that is not appended.
#[test]
fn why_bytes_are_no_list() {
    let mut few = [];
    let ram = Ram::new(BASE, &mut few);
    let core = Core::new();
    let refused = |bytes: &[u8], why| {
        assert_eq!(WindowList::from_bytes(bytes), Err(why));
        assert_eq!(core.windows_of_bytes(&ram, bytes), Err(WindowsError::List(why)));
    };
    let two = list(&[(0x1000, 1), (0x4000, 16)]);
    let good = two.as_bytes();
    let with = |at: usize, value: u8| {
        let mut bytes = good.to_vec();
        bytes[at] = value;
        bytes
    };
    (0..good.len()).for_each(|n| refused(&good[..n], Malformed::Length));
    refused(&[good, &[0]].concat(), Malformed::Length);
    refused(&with(0, 1), Malformed::Length);
    refused(&with(0, 65), Malformed::Count);
    refused(&with(1, 1), Malformed::Count);
    refused(&with(10, 1), Malformed::Start(1));
    refused(&with(3, 0x18), Malformed::Start(0));
    refused(&with(18, 0), Malformed::Pages(0));
    refused(&with(20, 17), Malformed::Pages(1));
    refused(&with(21, 1), Malformed::Pages(1));
    let past = [&[1, 0, 0, 0xF0][..], &[0xFF; 6], &[2, 0]].concat();
    refused(&past, Malformed::End(0));
    // What a list may not have is not appended.
    let mut list = two.clone();
    assert_eq!(list.push(0x8001, 1), Err(Malformed::Start(2)));
    assert_eq!(list.push(0x8000, 0), Err(Malformed::Pages(2)));
    assert_eq!(list.push(0x8000, 0x1_0001), Err(Malformed::Pages(2)));
    assert_eq!(list.push(u64::MAX - 0xFFF, 2), Err(Malformed::End(2)));
    assert_eq!(list, two);
    (2..64).for_each(|_| list.push(0, 1).unwrap());
    let full = list.clone();
    assert_eq!((list.push(0, 1), list.len()), (Err(Malformed::Count), 64));
    assert!(list == full && core.windows(&ram, &list) == Ok(Some((2, 3))));
}

#[test]
fn refusals_in_their_order() {
    let mut few = [0; 16];
    let ram = Ram::new(u64::MAX - 14, &mut few);
    let mut core = core();
    let refused = |check| Err(WindowsError::Refused(check));
    assert_eq!(core.windows_of_bytes(&ram, &[]), refused(Check::Window));
    core.words_mut()[place::LEVEL] = 4;
    assert_eq!(core.windows_of_bytes(&ram, &[]), refused(Check::Level));
}

#[test]
fn errors_have_numbers_and_texts() {
    let said = |found: Found| found.map_err(|e| (e.number(), e.to_string())).unwrap_err();
    let no_list = |why| said(Err(WindowsError::List(why)));
    let text = |number, text: &str| (number, text.to_string());
    assert_eq!(
        said(Err(WindowsError::Refused(Check::Window))),
        text(2, "refused by check 2")
    );
    assert_eq!(
        said(fault(5, 3, 0x0E)),
        text(10, "permission fault (status 0x0e) on page 3 of window 5")
    );
    for (why, rest) in [
        (Malformed::Length, "the length is not that of a list of windows"),
        (Malformed::Count, "there are more than 64 windows"),
        (Malformed::Start(1), "window 1 begins at no page"),
        (Malformed::Pages(2), "window 2 has no page, or more than 16"),
        (Malformed::End(3), "window 3 passes 2^64"),
    ] {
        assert_eq!(no_list(why), text(9, &format!("no list of windows: {rest}")));
    }
}

/// What a window's pages are, each translated for a write; or the first that faults.
fn frames(
    core: &mut Core,
    ram: &Ram,
    window: usize,
    start: u64,
    pages: u64,
) -> Result<Vec<u64>, WindowsError> {
    let translated = |page| match core.translate(ram, start + 4096 * page, Access::Write) {
        Ok(pa) => Ok(pa / 4096),
        Err(Stop::Fault(found)) => Err(WindowsError::Page(PageFault {
            window,
            page: page as usize,
            status: found.status,
        })),
        Err(stop) => panic!("{stop}"),
    };
    (0..pages).map(translated).collect()
}

/// The same of a list, by translations and by every two windows.
fn by_translations(core: &mut Core, ram: &Ram, windows: &[(u64, u64)]) -> Found {
    let all = windows
        .iter()
        .enumerate()
        .map(|(window, (start, pages))| frames(core, ram, window, *start, *pages))
        .collect::<Result<Vec<_>, _>>()?;
    let meet = |i: usize, k: usize| all[i].iter().any(|frame| all[k].contains(frame));
    let pairs = (0..all.len()).flat_map(|i| (i + 1..all.len()).map(move |k| (i, k)));
    Ok(pairs.into_iter().find(|(i, k)| meet(*i, *k)))
}

/// Whether bytes are a list's.
fn is_list(bytes: &[u8]) -> bool {
    let number = |at: usize, size: usize| {
        let word = bytes[at..at + size].iter().rev();
        word.fold(0u128, |n, byte| n << 8 | u128::from(*byte))
    };
    let count = if bytes.len() < 2 {
        65
    } else {
        number(0, 2) as usize
    };
    let right = |i| {
        let (start, pages) = (number(2 + 8 * i, 8), number(2 + 8 * count + 2 * i, 2));
        start % 4096 == 0 && (1..=16).contains(&pages) && start + 4096 * pages <= 1 << 64
    };
    count <= 64 && bytes.len() == 2 + 10 * count && (0..count).all(right)
}

/// Bytes by chance, near a list's.
#[test]
fn any_bytes_are_a_list_or_none() {
    let mut bytes = bytes();
    let ram = Ram::new(BASE, &mut bytes);
    let core = core();
    let mut below = chance();
    let (mut lists, mut none) = (0, 0);
    for _ in 0..100_000 {
        let start = |n| if n == 0 { u64::MAX << 14 } else { n << 12 };
        let windows: Vec<_> = (0..below(4)).map(|_| (start(below(20)), 1 + below(4))).collect();
        let mut bytes = list(&windows).as_bytes().to_vec();
        match below(6) {
            0 => bytes.truncate(below(bytes.len() as u64 + 1) as usize),
            1 => bytes.resize(bytes.len() + 10 * below(3) as usize, below(3) as u8),
            _ => {
                let at = below(bytes.len() as u64) as usize;
                bytes[at] = bytes[at].wrapping_add(below(20) as u8);
            }
        }
        let read = WindowList::from_bytes(&bytes);
        assert_eq!(read.is_ok(), is_list(&bytes), "{bytes:x?}");
        let found = core.windows_of_bytes(&ram, &bytes);
        match read {
            Ok(list) => {
                assert_eq!((list.as_bytes(), core.windows(&ram, &list)), (&bytes[..], found));
                lists += 1;
            }
            Err(why) => {
                assert_eq!(found, Err(WindowsError::List(why)));
                none += 1;
            }
        }
    }
    assert!(lists > 10_000 && none > 10_000, "{lists} {none}");
}

/// On tables and lists by chance: what a core without a cache translates.
#[test]
fn as_translations_say() {
    let mut bytes = bytes();
    let mut ram = Ram::new(BASE, &mut bytes);
    let core = core();
    let mut below = chance();
    let (mut pairs, mut none, mut faults) = (0, 0, 0);
    for _ in 0..2000 {
        let frames = 1 << (4 + below(12));
        let wrong = 10 + below(1000);
        for page in 0..512 {
            let descriptor = match below(wrong) {
                0 => 0x483,
                1 => 0,
                2 => 0x003,
                _ => 0x403,
            };
            ram.write_u64(BASE + 0x3000 + 8 * page, (below(frames) << 12) | descriptor);
        }
        let windows: Vec<_> = (0..below(10))
            .map(|_| (below(490) << 12, 1 + below(16)))
            .collect();
        let found = core.windows(&ram, &list(&windows));
        assert_eq!(
            found,
            by_translations(&mut core.clone(), &ram, &windows),
            "{windows:x?}"
        );
        match found {
            Ok(Some(_)) => pairs += 1,
            Ok(None) => none += 1,
            Err(_) => faults += 1,
        }
    }
    assert!(
        pairs > 200 && none > 200 && faults > 200,
        "{pairs} {none} {faults}"
    );
}

/// The cache has another answer until its TLBI, and windows have not.
#[test]
fn what_is_cached_is_not_asked() {
    let mut bytes = bytes();
    let mut ram = Ram::new(BASE, &mut bytes);
    let mut core = core();
    let both = list(&[(0x1000, 1), (0x5000, 1)]);
    core.translate(&ram, 0x5000, Access::Write).unwrap();
    ram.write_u64(BASE + 0x3028, (BASE + 0x8000) | 0x403);
    assert_eq!(core.translate(&ram, 0x5000, Access::Write), Ok(BASE + 0xA000));
    assert_eq!(core.windows(&ram, &both), Ok(Some((0, 1))));
    core.system(&mut ram, SystemOperation::TLBI_VMALLE1).unwrap();
    assert_eq!(core.translate(&ram, 0x5000, Access::Write), Ok(BASE + 0x8000));
}
