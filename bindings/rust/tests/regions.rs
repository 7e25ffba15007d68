//! RAM in several regions: an access finds in a region what it would find in one window that spans all.
mod common;

use a72::{Core, Memory, Ram, Stop, SystemOperation, Width, place, registers};
use common::{BASE, bytes, core};

const MIB: u64 = 0x10_0000;
const WIDTHS: [Width; 4] = [Width::Byte, Width::Half, Width::Word, Width::Double];

/// Bits in a fixed order (xorshift).
struct Draw(u64);

impl Draw {
    fn next(&mut self) -> u64 {
        self.0 ^= self.0 << 13;
        self.0 ^= self.0 >> 7;
        self.0 ^= self.0 << 17;
        self.0
    }

    fn of<T: Copy>(&mut self, all: &[T]) -> T {
        all[(self.next() % all.len() as u64) as usize]
    }
}

/// Two megabytes: tables as in `common`, and besides page 3 in the second, page 4 at the end of both, page 6 before them,
/// page 7 in the second, to be read only, and page 9 the last of both.
fn mapped() -> Vec<u8> {
    let mut all = bytes();
    all.resize(2 * MIB as usize, 0);
    let mut ram = Ram::new(BASE, &mut all);
    for (page, descriptor) in [
        (3, (BASE + MIB) | 0x403),
        (4, (BASE + 2 * MIB) | 0x403),
        (6, (BASE - 0x1000) | 0x403),
        (7, (BASE + MIB + 0x5000) | 0x483),
        (9, (BASE + 2 * MIB - 0x1000) | 0x403),
    ] {
        assert!(ram.write_u64(BASE + 0x3000 + 8 * page, descriptor));
    }
    all
}

/// What stays the same: all but the counters, which count again what is translated again, and the address of the last
/// abort.
fn kept(core: &Core) -> Vec<u64> {
    let mut words = core.words().to_vec();
    words[place::ABORT_PA] = 0;
    words[place::LEVEL_HITS..place::LEVEL_WALKS + 4].fill(0);
    words
}

/// A virtual address on a page of `mapped`, or with stage 1 off one in RAM behind the tables.
fn drawn(draw: &mut Draw, on: bool) -> u64 {
    let page = 1 + draw.next() % 9;
    let near = draw.of(&[0, 0x7FC, 0x800, 0xFF8, 0xFF8, 0xFFC]) + draw.next() % 8;
    let from = [BASE + 0x7000, BASE + MIB - 0x1000, BASE + 2 * MIB - 0x2000];
    (page << 12 | near) + if on { 0 } else { draw.of(&from) }
}

/// One core has `length` bytes of RAM as its window. The other's window is what of them lies before the first cut, and its
/// regions lie from cut to cut.
fn as_one_window(length: u64, cuts: &[u64]) {
    let mut one = mapped();
    one.truncate(length as usize);
    let mut parts = vec![(0, one.clone())];
    for &cut in cuts {
        let (from, last) = parts.last_mut().unwrap();
        let rest = last.split_off((cut - *from) as usize);
        parts.push((cut, rest));
    }
    let (mut whole, mut parted) = (core(), core());
    let mut draw = Draw(0x9E37_79B9_7F4A_7C15);
    let (mut done, mut stopped, mut on) = (0, 0, true);
    for step in 0..6_000 {
        let va = drawn(&mut draw, on);
        let (width, value) = (draw.of(&WIDTHS), draw.next());
        let mut all = Ram::new(BASE, &mut one);
        let mut banks: Vec<Ram> = parts.iter_mut().map(|(at, b)| Ram::new(BASE + *at, b)).collect();
        let banks = &mut banks[..];
        let kind = draw.next() % 8;
        let (a, b): (Result<u64, Stop>, Result<u64, Stop>) = match kind {
            0..=2 => (whole.load(&all, va, width), parted.load_from(banks, va, width)),
            3..=5 => (
                whole.store(&mut all, va, width, value).map(|()| 0),
                parted.store_to(banks, va, width, value).map(|()| 0),
            ),
            6 => (
                whole.fetch(&all, va & !3).map(u64::from),
                parted.fetch_from(banks, va & !3).map(u64::from),
            ),
            _ => {
                for core in [&mut whole, &mut parted] {
                    core.set_general(1, va).unwrap();
                }
                let zva = SystemOperation::dc_zva(1);
                (
                    whole.system(&mut all, zva).map(|()| 0),
                    parted.system_on(banks, zva).map(|()| 0),
                )
            }
        };
        assert_eq!(a, b, "step {step}: {kind} at {va:#x} of {width:?}");
        assert_eq!(whole.report(), parted.report(), "step {step}");
        if matches!(a, Err(Stop::Fault(fault)) if fault.status.0 == 0x10) {
            assert_eq!(whole.abort_pa(), parted.abort_pa(), "step {step}");
        }
        match a {
            Ok(_) => done += 1,
            Err(_) => stopped += 1,
        }
        if step % 16 == 0 {
            let mark = draw.next() & 3 == 0;
            on = step % 64 != 0;
            for core in [&mut whole, &mut parted] {
                core.set_unprivileged(mark).unwrap();
                core.write_register(registers::SCTLR_EL1, u64::from(on)).unwrap();
            }
        }
        assert!(kept(&whole) == kept(&parted), "step {step}: states");
    }
    let joined: Vec<u8> = parts.into_iter().flat_map(|(_, bytes)| bytes).collect();
    assert!(one == joined, "RAM");
    assert!(done > 1_000 && stopped > 1_000, "{done} done, {stopped} stopped");
}

#[test]
fn two_regions_are_as_one_window() {
    as_one_window(2 * MIB, &[MIB]);
}

/// Banks that adjoin within an access of one page, and in pages 1, 3 and 9 within a line; all of RAM ends within one too.
#[test]
fn banks_that_adjoin_anywhere_are_as_one_window() {
    as_one_window(2 * MIB - 0x7E5, &[0x8803, MIB + 0x7FF, MIB + 0x802, MIB + 0x804]);
}

/// A window, a region and a device, which counts what it is asked.
struct Board {
    low: Vec<u8>,
    high: Vec<u8>,
    asked: u64,
}

impl Memory for Board {
    fn ram(&mut self) -> Ram<'_> {
        Ram::new(BASE, &mut self.low)
    }

    fn region(&mut self, address: u64) -> Option<Ram<'_>> {
        let inside = (BASE + MIB..BASE + 2 * MIB).contains(&address);
        inside.then(|| Ram::new(BASE + MIB, &mut self.high))
    }

    fn read(&mut self, address: u64, _: Width) -> Option<u64> {
        self.asked += 1;
        Some(address)
    }

    fn write(&mut self, _: u64, _: Width, _: u64) -> bool {
        self.asked += 1;
        true
    }
}

fn stop(result: Result<u64, Stop>) -> (u64, u8) {
    match result {
        Err(Stop::Fault(fault)) => (fault.address, fault.status.0),
        _ => panic!("no fault: {result:?}"),
    }
}

#[test]
fn a_device_is_asked_where_no_ram_is() {
    let mut low = mapped();
    let high = low.split_off(MIB as usize);
    let asked = 0;
    let (mut board, mut core) = (Board { low, high, asked }, core());
    // Page 3 is a region's, page 4 the device's.
    assert_eq!(core.store_to(&mut board, 0x3FF8, Width::Double, 0x1234), Ok(()));
    assert_eq!(core.load_from(&mut board, 0x3FF8, Width::Half), Ok(0x1234));
    assert_eq!((board.high[0xFF8], board.asked), (0x34, 0));
    assert_eq!(
        core.load_from(&mut board, 0x4010, Width::Word),
        Ok(BASE + 2 * MIB + 0x10)
    );
    assert_eq!(board.asked, 1);
    // Over both: the lowest byte that no RAM holds is the abort's, and those before it are written.
    let wrote = core
        .store_to(&mut board, 0x3FFE, Width::Word, 0xDDCC_BBAA)
        .map(|()| 0);
    assert_eq!(stop(wrote), (0x4000, 0x10));
    assert_eq!(core.abort_pa(), BASE + 2 * MIB);
    assert_eq!((&board.high[0xFFE..0x1000], board.asked), (&[0xAA, 0xBB][..], 1));
    assert_eq!(
        stop(core.load_from(&mut board, 0x3FFC, Width::Double)),
        (0x4000, 0x10)
    );
    // Page 7 may not be written, and page 8 is not mapped: no byte moves.
    core.write_register(registers::TTBR0_EL1, BASE + 0x1000).unwrap();
    let wrote = core.store_to(&mut board, 0x7FFE, Width::Word, 9).map(|()| 0);
    assert_eq!(stop(wrote), (0x7FFE, 0x0F));
    assert_eq!(
        stop(core.load_from(&mut board, 0x7FFE, Width::Word)),
        (0x8000, 0x07)
    );
    // Tables are walked in the window alone.
    assert!(board.ram().write_u64(BASE + 0x2000, (BASE + MIB) | 3));
    core.system(&mut board.ram(), SystemOperation::TLBI_VMALLE1)
        .unwrap();
    assert_eq!(
        stop(core.load_from(&mut board, 0x1000, Width::Byte)),
        (0x1000, 0x17)
    );
    assert_eq!(board.asked, 1);
}

/// An access of one page that begins in a region and ends outside, or the other way, is nobody's.
#[test]
fn an_access_that_reaches_into_a_region_stays_an_abort() {
    let mut low = mapped();
    let mut high = low.split_off(MIB as usize);
    high.truncate(0x804);
    let mut board = Board { low, high, asked: 0 };
    let mut core = core();
    // Of the second the region has no byte, though it says that it has.
    for va in [0x3800, 0x3804] {
        assert_eq!(stop(core.load_from(&mut board, va, Width::Double)), (va, 0x10));
    }
    assert_eq!(board.asked, 0);
    let mut window = Vec::new();
    let mut none: [Ram; 0] = [];
    assert_eq!(
        stop(core.load_from(&mut none[..], 0x1000, Width::Byte)),
        (0x1000, 0x15)
    );
    let mut before = vec![7; 4];
    let mut banks = [Ram::new(0, &mut window), Ram::new(0x1000, &mut before)];
    let mut core = Core::new();
    assert_eq!(
        core.load_from(&mut banks[..], 0x1000, Width::Word),
        Ok(0x0707_0707)
    );
    assert_eq!(
        stop(core.load_from(&mut banks[..], 0x0FFE, Width::Word)),
        (0x0FFE, 0x10)
    );
    assert_eq!(
        stop(core.load_from(&mut banks[..], 0x1002, Width::Word)),
        (0x1002, 0x10)
    );
}

/// DC ZVA on a line that a region, or all RAM, begins or ends in: what is before the first eight bytes that RAM has not all
/// of is zero, and the abort is theirs.
#[test]
fn a_line_is_zeroed_as_far_as_ram_goes() {
    let (mut window, mut below, mut after) = (vec![7; 0x18], vec![7; 0x21], vec![7; 0x40]);
    let mut core = Core::new();
    core.set_general(1, 0x1010).unwrap();
    // 0x1000 to 0x1020, which a region has, the window to 0x1038, and another region from 0x1038 to 0x1078.
    let mut zeroed = |below_at, after_at| {
        for bytes in [&mut window, &mut below, &mut after] {
            bytes.fill(7);
        }
        let mut banks = [
            Ram::new(0x1020, &mut window),
            Ram::new(below_at, &mut below),
            Ram::new(after_at, &mut after),
        ];
        let done = core
            .system_on(&mut banks[..], SystemOperation::dc_zva(1))
            .map(|()| 0);
        let zeros = [&window, &below, &after].map(|bytes| bytes.iter().filter(|&&b| b == 0).count());
        (done, core.abort_pa(), zeros)
    };
    assert_eq!(zeroed(0x0FFF, 0x1038), (Ok(0), 0x1000, [0x18, 0x20, 8]));
    let (done, abort_pa, zeros) = zeroed(0x0FFF, 0x1039);
    assert_eq!(
        (stop(done), abort_pa, zeros),
        ((0x1038, 0x10), 0x1038, [0x18, 0x20, 0])
    );
    let (done, abort_pa, zeros) = zeroed(0x0FFA, 0x1038);
    assert_eq!(
        (stop(done), abort_pa, zeros),
        ((0x1018, 0x10), 0x1018, [0, 0x18, 0])
    );
    let (done, abort_pa, zeros) = zeroed(0x1008, 0x1038);
    assert_eq!((stop(done), abort_pa, zeros), ((0x1000, 0x10), 0x1000, [0, 0, 0]));
}

/// No device is asked for an access whose first and last bytes lie in no RAM, where one between does.
#[test]
fn a_region_within_an_access_is_ram() {
    /// RAM of two bytes within a device.
    struct Island([u8; 2]);
    impl Memory for Island {
        fn ram(&mut self) -> Ram<'_> {
            Ram::new(0, &mut [])
        }
        fn region(&mut self, address: u64) -> Option<Ram<'_>> {
            (0x1003..0x1005)
                .contains(&address)
                .then(|| Ram::new(0x1003, &mut self.0))
        }
        fn read(&mut self, address: u64, _: Width) -> Option<u64> {
            assert!(address == 0x1008);
            Some(9)
        }
        fn write(&mut self, address: u64, _: Width, _: u64) -> bool {
            address == 0x1008
        }
    }
    let (mut island, mut core) = (Island([1, 2]), Core::new());
    let wide = core.load_from(&mut island, 0x1000, Width::Double);
    assert_eq!(stop(wide), (0x1000, 0x10));
    let wide = core.store_to(&mut island, 0x1000, Width::Double, 0).map(|()| 0);
    assert_eq!(stop(wide), (0x1000, 0x10));
    assert_eq!(core.load_from(&mut island, 0x1003, Width::Half), Ok(0x201));
    assert_eq!(core.load_from(&mut island, 0x1008, Width::Double), Ok(9));
    assert_eq!(core.store_to(&mut island, 0x1008, Width::Word, 1), Ok(()));
}
