//! The bit of RAM whose flip changes a translation, beside translations with each bit of RAM the other way.
#[path = "common/chance.rs"]
mod chance;
mod common;

use a72::{Access, Check, Core, FlippedBit, Level, Ram, Status, Stop, View, WORDS, place, registers};
use chance::chance;
use common::{BASE, bytes, core};

type Found = Result<Option<FlippedBit>, Stop>;

fn cell(pa: u64, bit: u8) -> Found {
    Ok(Some(FlippedBit { pa, bit }))
}

/// What is found; RAM and core are as they were.
fn flip(core: &Core, ram: &mut Ram, va: u64, access: Access, view: View) -> Found {
    let (before, held) = (ram.bytes.to_vec(), core.clone());
    let found = core.flip(ram, va, access, view);
    assert!(*ram.bytes == before[..] && *core == held);
    found
}

/// The answer of the core with nothing cached, at the level and by the mark that give this view.
fn fresh(core: &Core, ram: &Ram, va: u64, access: Access, view: View) -> Result<u64, Status> {
    let mut asked = core.clone();
    if view == View::User && core.level() < 2 {
        asked.set_level(Level::EL0).unwrap();
    } else if core.level() == 0 {
        asked.set_level(Level::EL1).unwrap();
    }
    asked.set_unprivileged(false).unwrap();
    match asked.translate(ram, va, access) {
        Ok(pa) => Ok(pa),
        Err(Stop::Fault(fault)) => Err(fault.status),
        Err(stop) => panic!("{stop}"),
    }
}

#[test]
fn the_first_descriptor_and_its_lowest_bit() {
    let mut bytes = bytes();
    let mut ram = Ram::new(BASE, &mut bytes);
    let core = core();
    // A page, one to be read only, one that is not mapped, and one outside RAM: all by the table of level 1.
    for va in [0x1000, 0x2FFF, 0x3000, 0x4008] {
        for access in [Access::Read, Access::Write, Access::Fetch] {
            for view in [View::Privileged, View::User] {
                assert_eq!(flip(&core, &mut ram, va, access, view), cell(BASE + 0x1000, 0));
            }
        }
    }
    // Where nothing is, a block of level 1 would be.
    let read = |ram: &mut Ram, va| flip(&core, ram, va, Access::Read, View::Privileged);
    assert_eq!(read(&mut ram, 1 << 30), cell(BASE + 0x1008, 0));
    // Of no table at all: the address is in no range, or the table lies outside RAM.
    assert_eq!(read(&mut ram, 1 << 39), Ok(None));
    let mut high = Ram::new(BASE + 0x1001, &mut ram.bytes[0x1001..]);
    assert_eq!(read(&mut high, 0x1000), Ok(None));
}

#[test]
fn no_bit_and_bit_1() {
    let mut bytes = vec![0; 0x2000];
    let mut ram = Ram::new(BASE, &mut bytes);
    let mut core = core();
    core.write_register(registers::TTBR0_EL1, BASE).unwrap();
    // The size of addresses, the granule, and the level at which the walk begins; whether a block may stand there.
    for (size, tg0, level, block) in [
        (16, 0, 0, false),
        (25, 0, 1, true),
        (34, 0, 2, true),
        (16, 1, 1, false),
        (22, 1, 2, true),
        (35, 1, 3, false),
    ] {
        core.write_register(registers::TCR_EL1, size | tg0 << 14).unwrap();
        for (low, found) in [
            (0, block.then_some(0)),
            (1, Some(u8::from(!block))),
            (2, Some(0)),
            (3, Some(0)),
        ] {
            ram.write_u64(BASE, BASE | 0x400 | low);
            let found = found.map(|bit| FlippedBit { pa: BASE, bit });
            for view in [View::Privileged, View::User] {
                let said = flip(&core, &mut ram, 0x10, Access::Read, view);
                assert_eq!(said, Ok(found), "level {level}, bits {low}");
            }
        }
    }
}

#[test]
fn stage_1_off_and_what_is_cached() {
    let mut bytes = bytes();
    let mut ram = Ram::new(BASE, &mut bytes);
    let mut core = core();
    core.translate(&ram, 0x1000, Access::Read).unwrap();
    ram.write_u64(BASE + 0x1000, 2);
    assert_eq!(core.translate(&ram, 0x1000, Access::Read), Ok(BASE + 0x8000));
    let report = core.report();
    assert_eq!(
        flip(&core, &mut ram, 0x1000, Access::Read, View::Privileged),
        cell(BASE + 0x1000, 0)
    );
    assert_eq!(core.report(), report);
    // At EL2 and EL3 stage 1 is off.
    for level in [Level::EL2, Level::EL3] {
        core.set_level(level).unwrap();
        for va in [0x1000, 1 << 44] {
            assert_eq!(flip(&core, &mut ram, va, Access::Write, View::User), Ok(None));
        }
    }
}

#[test]
fn refused_by_its_checks() {
    let mut bytes = bytes();
    let mut core = core();
    let refused = |check| Err(Stop::Refused(check));
    let mut ram = Ram::new(u64::MAX, &mut bytes);
    assert_eq!(
        flip(&core, &mut ram, 0x1000, Access::Read, View::User),
        refused(Check::Window)
    );
    let mut words = [0; WORDS];
    core.save(&mut words);
    words[place::LEVEL] = 4;
    core.restore(&words);
    assert_eq!(
        flip(&core, &mut ram, 0x1000, Access::Read, View::User),
        refused(Check::Level)
    );
}

/// How an address of so many bits is walked: from which table, with pages of how many bits.
#[derive(Clone, Copy, Debug)]
struct Tables {
    first: u64,
    bits: u64,
    page: u64,
}

impl Tables {
    /// The descriptors that the walk reads, in order; it may go on where the table lies past the size of addresses, and so
    /// outside RAM.
    fn read(self, ram: &Ram, va: u64) -> Vec<u64> {
        let Tables { first, bits, page } = self;
        let width = page - 3;
        let mut level = 3 - (bits - page).div_ceil(width) as i64 + 1;
        let (mut table, mut all, mut top) = (first, Vec::new(), bits);
        loop {
            let low = page + width * (3 - level) as u64;
            let index = (va % (1 << top)) >> low;
            all.push(table + 8 * index);
            match ram.read_u64(table + 8 * index) {
                Some(descriptor) if descriptor & 3 == 3 && level < 3 => {
                    table = (descriptor % (1 << 48)) & (u64::MAX << page);
                }
                _ => return all,
            }
            (level, top) = (level + 1, low);
        }
    }
}

/// The first descriptor that has a bit whose flip changes the answer, by all bits of RAM; and how many have.
fn by_all_bits(
    core: &Core,
    ram: &mut Ram,
    tables: Tables,
    va: u64,
    access: Access,
    view: View,
) -> (Option<FlippedBit>, usize) {
    let answer = fresh(core, ram, va, access, view);
    let mut changing = Vec::new();
    for i in 0..8 * ram.bytes.len() {
        ram.bytes[i / 8] ^= 1 << (i % 8);
        if fresh(core, ram, va, access, view) != answer {
            changing.push(8 * ram.base + i as u64);
        }
        ram.bytes[i / 8] ^= 1 << (i % 8);
    }
    let in_order = tables
        .read(ram, va)
        .into_iter()
        .flat_map(|pa| (0..64).map(move |bit| FlippedBit { pa, bit }));
    let first = in_order
        .into_iter()
        .find(|b| changing.contains(&(8 * b.pa + u64::from(b.bit))));
    assert_eq!(first.is_none(), changing.is_empty());
    (first, changing.len())
}

/// A core at a level with tables by chance in a small window, of which its ends may cut a descriptor; and an address.
fn scene(below: &mut impl FnMut(u64) -> u64, core: &mut Core, ram: &mut Ram) -> (Tables, u64) {
    let (size, large, level, upper) = (16 + below(24), below(2), below(4), below(2));
    let (page, bits) = (if large == 1 { 16 } else { 12 }, 64 - size);
    let tcr = [
        size | large << 14 | size << 16 | (2 + large) << 30 | 5 << 32,
        size | large << 14 | 5 << 16,
    ];
    core.set_level(Level::EL3).unwrap();
    for (key, value) in [
        (registers::TCR_EL1, tcr[0]),
        (registers::TCR_EL2, tcr[1]),
        (registers::TCR_EL3, tcr[1]),
        (registers::TTBR0_EL1, BASE),
        (registers::TTBR1_EL1, BASE),
        (registers::TTBR0_EL2, BASE),
        (registers::TTBR0_EL3, BASE),
        (registers::SCTLR_EL1, 1),
        (registers::SCTLR_EL2, 1),
        (registers::SCTLR_EL3, 1),
    ] {
        core.write_register(key, value).unwrap();
    }
    core.set_level(level).unwrap();
    // What the words of the window lead to: mostly to tables in it.
    for word in 0..64 {
        let frame = [
            BASE,
            BASE,
            BASE,
            BASE - (1 << page),
            BASE + (1 << page),
            below(1 << 48) >> page << page,
        ];
        let low = [3, 3, 3, 3, 3, 3, 1, 1, 0, 2][below(10) as usize] | below(64) << 5;
        let flag = if below(4) == 0 { 0 } else { 0x400 };
        let high = if below(2) == 0 { 0 } else { below(1 << 16) << 48 };
        ram.write_u64(
            BASE - 128 + 8 * word,
            frame[below(6) as usize] | low | flag | high,
        );
    }
    let mut va = below(1 << page);
    for at in (page..bits).step_by(page as usize - 3) {
        let index = if below(6) == 0 {
            u64::MAX - below(16)
        } else {
            below(40)
        };
        va |= (index % (1 << (page - 3))) << at;
    }
    va %= 1 << bits;
    if upper == 1 && level < 2 {
        va |= u64::MAX << bits;
    }
    (
        Tables {
            first: BASE,
            bits,
            page,
        },
        va,
    )
}

#[test]
fn as_all_bits_of_ram_say() {
    let mut core = core();
    let mut below = chance();
    let (mut found, mut none, mut seen) = ([0; 2], 0, 0);
    for _ in 0..200 {
        let (shift, len) = (below(40), 1 + below(200));
        let mut bytes: Vec<u8> = (0..len).map(|_| below(256) as u8).collect();
        let mut ram = Ram::new(BASE - shift, &mut bytes);
        let (tables, va) = scene(&mut below, &mut core, &mut ram);
        let access = [Access::Read, Access::Write, Access::Fetch][below(3) as usize];
        let mut answers = Vec::new();
        for view in [View::Privileged, View::User] {
            let (first, bits) = by_all_bits(&core, &mut ram, tables, va, access, view);
            assert_eq!(
                flip(&core, &mut ram, va, access, view),
                Ok(first),
                "{tables:?} {va:x}"
            );
            match first {
                Some(FlippedBit { bit, .. }) => found[usize::from(bit)] += 1,
                None => none += 1,
            }
            seen += bits;
            answers.push((first, bits));
        }
        assert!(core.level() < 2 || answers[0] == answers[1]);
    }
    assert!(
        found[0] > 100 && found[1] > 10 && none > 100 && seen > 1000,
        "{found:?} {none} {seen}"
    );
}

/// A table that maps itself is read twice, and both reads see the flip.
#[test]
fn a_word_that_is_read_twice() {
    let mut bytes = vec![0; 0x1000];
    let mut ram = Ram::new(BASE, &mut bytes);
    let mut core = core();
    core.write_register(registers::TCR_EL1, 34).unwrap(); // 30 bits: levels 2 and 3
    core.write_register(registers::TTBR0_EL1, BASE).unwrap();
    ram.write_u64(BASE, BASE | 0x403);
    let read = |ram: &Ram| fresh(&core, ram, 0x10, Access::Read, View::Privileged);
    assert_eq!(read(&ram), Ok(BASE + 0x10));
    assert_eq!(
        flip(&core, &mut ram, 0x10, Access::Read, View::Privileged),
        cell(BASE, 0)
    );
    // Bit 10 says nothing in a table's descriptor, and in a page's that it was accessed.
    assert!(ram.flip(FlippedBit { pa: BASE, bit: 10 }));
    assert_eq!(read(&ram), Err(Status(0x0B)));
}

#[test]
fn a_bit_of_ram_turned() {
    let mut bytes = vec![0; 16];
    let mut ram = Ram::new(BASE + 4, &mut bytes);
    for (at, bit, turned) in [
        (8, 0, true),
        (8, 63, true),
        (8, 64, false),
        (0, 0, false),
        (13, 0, false),
        (12, 9, true),
    ] {
        assert_eq!(ram.flip(FlippedBit { pa: BASE + at, bit }), turned, "{at} {bit}");
    }
    assert_eq!(ram.bytes, [0, 0, 0, 0, 1, 0, 0, 0, 0, 2, 0, 0x80, 0, 0, 0, 0]);
}
