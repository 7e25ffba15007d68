//! What the face has beside the core's own calls: devices, a walk, flags, names.
mod common;

use a72::{
    Access, Broadcast, Check, Core, Flags, FlippedBit, Level, Mapping, Memory, Ram, Rights, Status, Stop,
    SystemOperation, View, Walk, Width, registers,
};
use common::{BASE, bytes, core};

/// RAM, and a region that reads as its address.
struct Board {
    ram: Vec<u8>,
    written: Vec<(u64, Width, u64)>,
}

impl Memory for Board {
    fn ram(&mut self) -> Ram<'_> {
        Ram::new(BASE, &mut self.ram)
    }

    fn read(&mut self, address: u64, _: Width) -> Option<u64> {
        (0x8000_0000..0x8000_1000).contains(&address).then_some(address)
    }

    fn write(&mut self, address: u64, width: Width, value: u64) -> bool {
        let answers = address != 0x8000_0008;
        self.written.extend(answers.then_some((address, width, value)));
        answers
    }
}

/// The same, and a device at every address outside RAM, which reads as its address.
struct Everywhere(Board);

impl Memory for Everywhere {
    fn ram(&mut self) -> Ram<'_> {
        self.0.ram()
    }

    fn read(&mut self, address: u64, _: Width) -> Option<u64> {
        Some(address)
    }

    fn write(&mut self, address: u64, width: Width, value: u64) -> bool {
        self.0.written.push((address, width, value));
        true
    }
}

fn board() -> Board {
    Board {
        ram: bytes(),
        written: vec![],
    }
}

fn status(stop: Result<(), Stop>) -> (u64, u8) {
    match stop {
        Err(Stop::Fault(fault)) => (fault.address, fault.status.0),
        _ => panic!("no fault: {stop:?}"),
    }
}

#[test]
fn devices_answer_outside_ram() {
    let (mut board, mut core) = (board(), core());
    // Page 4 lies at 0x8000_0000, outside RAM.
    assert_eq!(core.load_from(&mut board, 0x4010, Width::Double), Ok(0x8000_0010));
    assert_eq!(core.abort_pa(), 0x8000_0010);
    assert_eq!(core.fetch_from(&mut board, 0x4020), Ok(0x8000_0020));
    assert_eq!(core.store_to(&mut board, 0x4FFF, Width::Byte, 7), Ok(()));
    assert_eq!(board.written, [(0x8000_0FFF, Width::Byte, 7)]);
    // Nobody takes this one: the abort stays.
    assert_eq!(
        status(core.store_to(&mut board, 0x4008, Width::Word, 7)),
        (0x4008, 0x10)
    );
    assert_eq!(core.store_to(&mut board, 0x1008, Width::Word, 7), Ok(()));
    assert_eq!(core.load_from(&mut board, 0x1008, Width::Double), Ok(7));
    assert_eq!(board.written.len(), 1);
}

#[test]
fn what_no_device_is_asked_for() {
    let (mut board, mut core) = (board(), core());
    // Over two pages, of which the second lies outside: an abort at the second.
    board.ram().write_u64(BASE + 0x3018, (BASE + 0xB000) | 0x403);
    assert_eq!(
        status(core.store_to(&mut board, 0x3FFE, Width::Word, 7)),
        (0x4000, 0x10)
    );
    assert_eq!(
        status(core.load_from(&mut board, 0x4FFE, Width::Word).map(drop)),
        (0x4FFE, 0x10)
    );
    // A page that is not mapped, and a table that lies outside.
    assert_eq!(
        status(core.load_from(&mut board, 0x6000, Width::Word).map(drop)),
        (0x6000, 0x07)
    );
    board.ram().write_u64(BASE + 0x1000, 0x8000_0003);
    assert_eq!(
        status(core.load_from(&mut board, 0x7000, Width::Word).map(drop)),
        (0x7000, 0x16)
    );
    assert!(board.written.is_empty());
    // RAM alone is a memory in which nothing answers.
    let mut bytes = bytes();
    let mut ram = Ram::new(BASE, &mut bytes);
    let mut core = common::core();
    assert_eq!(
        status(core.load_from(&mut ram, 0x4000, Width::Byte).map(drop)),
        (0x4000, 0x10)
    );
    assert_eq!(core.store_to(&mut ram, 0x1000, Width::Byte, 1), Ok(()));
    assert_eq!(core.fetch_from(&mut ram, 0x1000), Ok(1));
}

/// An access of one page whose first bytes lie in RAM, or whose last, is no device's: not at RAM's end, and not before
/// its beginning.
#[test]
fn an_access_that_reaches_into_ram_stays_an_abort() {
    let mut board = board();
    board.ram.truncate(0xB004);
    for (page, pa) in [(6, BASE + 0xB000), (7, BASE - 0x1000)] {
        assert!(board.ram().write_u64(BASE + 0x3000 + 8 * page, pa | 0x403));
    }
    let mut everywhere = Everywhere(board);
    let mut core = core();
    for (va, width, asked) in [
        (0x6000, Width::Double, None),
        (0x6002, Width::Word, None),
        (0x6003, Width::Half, None),
        (0x6004, Width::Double, Some(BASE + 0xB004)),
        (0x7FF8, Width::Double, Some(BASE - 8)),
        (0x7FFC, Width::Word, Some(BASE - 4)),
    ] {
        let stop = (va, 0x10);
        let read = core.load_from(&mut everywhere, va, width);
        let wrote = core.store_to(&mut everywhere, va, width, 9);
        let written = everywhere.0.written.pop();
        match asked {
            Some(pa) => assert_eq!((read, wrote, written), (Ok(pa), Ok(()), Some((pa, width, 9)))),
            None => {
                assert_eq!((status(read.map(drop)), status(wrote)), (stop, stop));
                assert_eq!(written, None);
            }
        }
    }
    assert_eq!(
        status(core.fetch_from(&mut everywhere, 0x6002).map(drop)),
        (0x6002, 0x10)
    );
    // With stage 1 off an access runs on over a page's end: into RAM from below it.
    core.set_level(Level::EL3).unwrap();
    assert_eq!(
        status(core.load_from(&mut everywhere, BASE - 4, Width::Double).map(drop)),
        (BASE - 4, 0x10)
    );
}

/// With stage 1 off no access is split: a device may answer over the end of 4 KiB. A fetch is split never.
#[test]
fn flat_accesses_end_where_they_like() {
    let (mut board, mut core) = (board(), Core::new());
    let end = 0x8000_0FFC;
    assert_eq!(core.load_from(&mut board, end, Width::Double), Ok(end));
    assert_eq!(core.store_to(&mut board, end, Width::Double, 7), Ok(()));
    assert_eq!(board.written, [(end, Width::Double, 7)]);
    assert_eq!(core.fetch_from(&mut board, end + 2), Ok(end as u32 + 2));
    assert_eq!(
        status(core.load_from(&mut board, 0x8000_1000, Width::Word).map(drop)),
        (0x8000_1000, 0x10)
    );
}

/// What [`Memory`] does not reach: DC ZVA outside RAM, though a device is there.
#[test]
fn dc_zva_zeroes_ram_alone() {
    let (mut board, mut core) = (board(), core());
    core.set_general(0, 0x4010).unwrap();
    assert_eq!(
        status(core.system(&mut board.ram(), SystemOperation::dc_zva(0))),
        (0x4000, 0x10)
    );
    core.set_general(0, 0x1010).unwrap();
    assert_eq!(core.store_to(&mut board, 0x1020, Width::Double, 1), Ok(()));
    assert_eq!(core.system(&mut board.ram(), SystemOperation::dc_zva(0)), Ok(()));
    assert_eq!(core.load_from(&mut board, 0x1020, Width::Double), Ok(0));
}

#[test]
fn a_walk_shows_and_changes_nothing() {
    let mut bytes = bytes();
    let ram = Ram::new(BASE, &mut bytes);
    let mut core = core();
    let before = core.clone();
    let page = Mapping {
        pa: BASE + 0x8123,
        rights: Rights(0x3C),
        level: 3,
        global: true,
        descriptor: (BASE + 0x8000) | 0x403,
    };
    assert_eq!(core.walk(&ram, 0x1123), Ok(Walk::Mapped(page)));
    let Ok(Walk::Mapped(own)) = core.walk(&ram, 0x5000) else {
        panic!("page 5 is mapped")
    };
    assert!(!own.global && own.rights.has(Rights::needed(Access::Write, false)));
    assert_eq!(core.walk(&ram, 0x3000), Ok(Walk::Fault(Status(0x07))));
    assert!(core == before);
    core.set_level(Level::EL3).unwrap();
    assert_eq!(core.walk(&ram, 0x3000), Ok(Walk::Flat(0x3000)));
    assert_eq!(core.walk(&ram, 1 << 44), Ok(Walk::Fault(Status(0x00))));
    let mut few = [0; 16];
    let past = Ram::new(u64::MAX - 14, &mut few);
    assert_eq!(core.walk(&past, 0), Err(Stop::Refused(a72::Check::Window)));
    core.words_mut()[a72::place::LEVEL] = 4;
    assert_eq!(core.walk(&past, 0), Err(Stop::Refused(a72::Check::Level)));
}

#[test]
fn names_and_numbers() {
    assert_eq!(
        SystemOperation::tlbi_vae1is(3),
        SystemOperation::decode(0xD508_8323).unwrap()
    );
    assert_eq!(
        SystemOperation::at_s12e0w(1),
        SystemOperation::decode(0xD50C_78E1).unwrap()
    );
    assert_eq!(
        SystemOperation::TLBI_ALLE3,
        SystemOperation::decode(0xD50E_871F).unwrap()
    );
    assert_eq!(SystemOperation::dc_civac(0).name(), Some("DC CIVAC"));
    assert_eq!(SystemOperation::new(0, 8, 7, 6, 0).name(), None);
    assert_eq!(u64::from(registers::PAR_EL1), 0xC3A0);
    assert_eq!(registers::name(registers::PAR_EL1), Some("PAR_EL1"));
    assert_eq!(
        (registers::name(0), registers::place(0xC3A0)),
        (None, Some(a72::place::PAR_EL1))
    );
}

/// Every operation with a name is done at EL3; DC ZVA finds no RAM there.
#[test]
fn every_named_operation_is_done() {
    let mut bytes = bytes();
    let mut ram = Ram::new(BASE, &mut bytes);
    for fields in 0..1 << 14 {
        let [op1, crn, crm, op2] = [fields >> 11 & 7, fields >> 7 & 15, fields >> 3 & 15, fields & 7];
        let operation = SystemOperation::new(op1, crn, crm, op2, 31);
        let mut core = Core::new();
        let done = core.system(&mut ram, operation);
        if let Some(name) = operation.name() {
            assert_eq!(done.is_ok(), name != "DC ZVA", "{name}: {done:?}");
            assert_eq!(
                core.broadcast().is_some(),
                name.ends_with("IS") && name.starts_with("TLBI") && crm == 3,
                "{name}"
            );
        }
    }
}

#[test]
fn flags_and_the_core_in_short() {
    let mut core = core();
    core.set_flags(Flags {
        nzcv: 0b1010,
        daif: 0b1111,
        sp_sel: false,
    });
    assert_eq!(core.pstate(), 0xA000_03C4);
    assert_eq!(
        core.flags(),
        Flags {
            nzcv: 0b1010,
            daif: 0b1111,
            sp_sel: false
        }
    );
    core.set_flags(Flags {
        nzcv: 0xF5,
        daif: 0xF2,
        sp_sel: true,
    });
    assert_eq!(core.pstate(), 0x5000_0085);
    assert!(
        format!("{core:?}").starts_with("Core { level: 1, pc: 0x0, pstate: 0x50000085, asid: 0, counters:")
    );
    let mut other = Core::new();
    other.receive(Broadcast::All);
    assert_eq!(other.counters().flushes, 1);
    assert!(size_of::<Core>() < 42_000);
}

/// A core may be shared to be read, and sent.
#[test]
fn a_core_is_send_and_sync() {
    fn shared<T: Send + Sync>() {}
    shared::<Core>();
}

/// What is at hand reads no descriptor, whatever the operation before it read; where nothing is, that one's report stays.
#[test]
fn what_is_at_hand_reads_nothing() {
    let mut bytes = bytes();
    let ram = Ram::new(BASE, &mut bytes);
    let mut core = core();
    core.fetch(&ram, 0x1000).unwrap();
    core.translate(&ram, 0x1000, Access::Read).unwrap();
    core.data_pa(&ram, 0x2000).unwrap();
    assert_eq!(core.report().reads, 3);
    assert_eq!(
        core.translate_at_hand(0x1000, Access::Read),
        Some(Ok(BASE + 0x8000))
    );
    assert_eq!(core.report().reads, 0);
    core.data_pa(&ram, 0x5000).unwrap();
    assert_eq!(core.translate_at_hand(0x3000, Access::Read), None);
    assert_eq!(core.report().reads, 3);
    assert_eq!(core.fetch_at_hand(0x1008), Some(Ok(BASE + 0x8008)));
    assert_eq!(core.report().reads, 0);
}

#[test]
fn answers_with_nothing_cached() {
    let mut bytes = bytes();
    let mut ram = Ram::new(BASE, &mut bytes);
    let (mut used, unused) = (core(), core());
    let page = BASE + 0x3008;
    used.translate(&ram, 0x1000, Access::Read).unwrap();
    ram.write_u64(page, (BASE + 0xB000) | 0x443); // at EL0 too
    for view in [View::Privileged, View::User] {
        for access in [Access::Read, Access::Write, Access::Fetch] {
            let fresh = |ram: &Ram, va| used.fresh_answer(ram, va, access, view);
            for va in (0..6).map(|page| page << 12 | 0x123) {
                let mut other = unused.clone();
                other.set_level(u64::from(view == View::Privileged)).unwrap();
                assert_eq!(fresh(&ram, va), other.translate(&ram, va, access));
            }
            for (pa, bit) in (0..65)
                .map(|bit| (page, bit))
                .chain([(BASE - 1, 0), (BASE + 0xF_FFF9, 0)])
            {
                let cell = FlippedBit { pa, bit };
                let before = ram.bytes.to_vec();
                let found = used.fresh_answer_with(&mut ram, 0x1123, access, view, cell);
                assert_eq!(*ram.bytes, before[..]);
                let turned = ram.flip(cell);
                assert_eq!(found, fresh(&ram, 0x1123));
                assert_eq!(turned && ram.flip(cell), pa == page && bit < 64);
            }
        }
    }
    let mut none = Ram::new(u64::MAX, &mut ram.bytes[..2]);
    let refused = Err(Stop::Refused(Check::Window));
    assert_eq!(used.fresh_answer(&none, 0, Access::Read, View::User), refused);
    let cell = FlippedBit { pa: 0, bit: 0 };
    assert_eq!(
        used.fresh_answer_with(&mut none, 0, Access::Read, View::User, cell),
        refused
    );
}
