//! How many descriptors each operation read.
mod common;

use a72::{Access, Broadcast, Core, Exception, Flags, Level, Ram, SystemOperation, Width, registers};
use common::{BASE, bytes, core};

fn reads(core: &Core) -> u64 {
    core.report().reads
}

#[test]
fn a_walk_reads_and_what_is_cached_does_not() {
    let mut bytes = bytes();
    let mut ram = Ram::new(BASE, &mut bytes);
    let mut core = core();
    assert_eq!(reads(&core), 0);
    // By a walk, a hint, an entry, an entry of which EL0 may not read.
    core.translate(&ram, 0x1234, Access::Read).unwrap();
    assert_eq!(reads(&core), 3);
    core.translate(&ram, 0x1234, Access::Read).unwrap();
    assert_eq!(reads(&core), 0);
    core.load(&ram, 0x2000, Width::Double).unwrap();
    assert_eq!(reads(&core), 3);
    core.load(&ram, 0x2008, Width::Double).unwrap();
    assert_eq!(reads(&core), 0);
    core.store(&mut ram, 0x5000, Width::Byte, 7).unwrap();
    assert_eq!(reads(&core), 3);
    core.store(&mut ram, 0x5000, Width::Byte, 7).unwrap();
    assert_eq!(reads(&core), 0);
    core.system(&mut ram, SystemOperation::TLBI_VMALLE1).unwrap();
    assert_eq!(reads(&core), 0);
    core.fetch(&ram, 0x1000).unwrap();
    assert_eq!(reads(&core), 3);
    core.fetch_pa(&ram, 0x1000).unwrap();
    assert_eq!(reads(&core), 0);
    core.data_pa(&ram, 0x2000).unwrap();
    assert_eq!(reads(&core), 3);
    core.translate(&ram, 0x5000, Access::Write).unwrap();
    core.data_pa(&ram, 0x2000).unwrap();
    assert_eq!(reads(&core), 0);
    core.set_level(Level::EL0).unwrap();
    assert!(core.translate(&ram, 0x2000, Access::Read).is_err());
    assert_eq!(reads(&core), 0);
}

#[test]
fn a_walk_that_faults_reads_as_far_as_it_went() {
    let mut bytes = bytes();
    let mut ram = Ram::new(BASE, &mut bytes);
    let mut core = core();
    // No page, a page outside RAM, no table at level 1, a table outside RAM, an address in no range.
    assert!(core.load(&ram, 0x3000, Width::Word).is_err());
    assert_eq!(reads(&core), 3);
    assert!(core.load(&ram, 0x4000, Width::Word).is_err());
    assert_eq!(reads(&core), 3);
    assert_eq!(core.data_pa(&ram, 1 << 30), Ok(None));
    assert_eq!(reads(&core), 1);
    ram.write_u64(BASE + 0x2008, 0x8000_0003);
    assert_eq!(core.fetch_pa(&ram, 0x20_0000), Ok(None));
    assert_eq!(reads(&core), 3);
    assert_eq!(core.data_pa(&ram, 1 << 40), Ok(None));
    assert_eq!(reads(&core), 0);
}

#[test]
fn two_pages_are_two_walks() {
    let mut bytes = bytes();
    let mut ram = Ram::new(BASE, &mut bytes);
    let mut core = core();
    core.load(&ram, 0x1FFC, Width::Double).unwrap();
    assert_eq!(reads(&core), 6);
    core.load(&ram, 0x1FFC, Width::Double).unwrap();
    assert_eq!(reads(&core), 0);
    // The first page's entry serves, and the second is only to be read; then no page, and the second is not asked.
    assert!(core.store(&mut ram, 0x1FFC, Width::Double, 1).is_err());
    assert_eq!(reads(&core), 0);
    core.system(&mut ram, SystemOperation::TLBI_VMALLE1).unwrap();
    assert!(core.store(&mut ram, 0x3FFC, Width::Double, 1).is_err());
    assert_eq!(reads(&core), 3);
}

/// Four levels of tables of 4 KiB; the third is what 64 KiB pages need.
#[test]
fn as_many_as_there_are_levels() {
    let mut bytes = vec![0; 0x8_0000];
    let mut ram = Ram::new(BASE, &mut bytes);
    for (at, descriptor) in [
        (0x1000, BASE + 0x2003),
        (0x2000, BASE + 0x3003),
        (0x3000, BASE + 0x4003),
        (0x4000, BASE + 0x5403),
        (0x1_0000, BASE + 0x2_0003),
        (0x2_0000, BASE + 0x3_0003),
        (0x3_0000, BASE + 0x4_0403),
    ] {
        ram.write_u64(BASE + at, descriptor);
    }
    for (tcr, table, due) in [(16, 0x1000, 4), (16 | 1 << 14, 0x1_0000, 3)] {
        let mut core = Core::new();
        core.write_register(registers::TCR_EL1, tcr).unwrap();
        core.write_register(registers::TTBR0_EL1, BASE + table).unwrap();
        core.write_register(registers::SCTLR_EL1, 1).unwrap();
        core.set_level(Level::EL1).unwrap();
        core.load(&ram, 0x10, Width::Word).unwrap();
        assert_eq!(reads(&core), due);
    }
}

#[test]
fn zeroing_and_at() {
    let mut bytes = bytes();
    let mut ram = Ram::new(BASE, &mut bytes);
    let mut core = core();
    core.set_general(1, 0x1040).unwrap();
    // Eight stores, and one walk among them; then by the hint.
    core.system(&mut ram, SystemOperation::dc_zva(1)).unwrap();
    assert_eq!(reads(&core), 3);
    core.system(&mut ram, SystemOperation::dc_zva(1)).unwrap();
    assert_eq!(reads(&core), 0);
    // AT walks whatever is cached, but not with stage 1 off.
    core.system(&mut ram, SystemOperation::at_s1e1r(1)).unwrap();
    assert_eq!(reads(&core), 3);
    core.set_level(Level::EL3).unwrap();
    core.system(&mut ram, SystemOperation::at_s1e3r(1)).unwrap();
    assert_eq!(reads(&core), 0);
    core.set_level(Level::EL1).unwrap();
    core.set_general(1, 0x3040).unwrap();
    assert!(core.system(&mut ram, SystemOperation::dc_zva(1)).is_err());
    assert_eq!(reads(&core), 3);
}

/// Refused, undefined or unimplemented; settings; an exception that is taken; what other cores are told, and tell.
/// Parts set by hand are no operations, nor is what is not at hand: the report stays.
#[test]
fn what_reads_nothing() {
    let mut bytes = bytes();
    let mut ram = Ram::new(BASE, &mut bytes);
    let mut core = core();
    let mut few = [0; 16];
    let mut walked = |core: &mut Core| {
        core.system(&mut ram, SystemOperation::TLBI_VMALLE1).unwrap();
        core.load(&ram, 0x1000, Width::Word).unwrap();
        assert_eq!(reads(core), 3);
    };
    let mut after = |due, operation: &mut dyn FnMut(&mut Core, &mut Ram)| {
        walked(&mut core);
        operation(&mut core, &mut Ram::new(u64::MAX - 14, &mut few));
        assert_eq!(reads(&core), due);
    };
    let flags = Flags {
        nzcv: 1,
        daif: 2,
        sp_sel: true,
    };
    after(3, &mut |core, _| core.set_pc(0x1000));
    after(3, &mut |core, _| core.set_pstate(0x3C5));
    after(3, &mut |core, _| core.set_flags(flags));
    after(3, &mut |core, _| core.set_generation(7));
    after(3, &mut |core, _| {
        assert_eq!(core.translate_at_hand(0x5000, Access::Read), None)
    });
    after(3, &mut |core, _| assert_eq!(core.fetch_at_hand(0x5000), None));
    let mut nothing = |operation: &mut dyn FnMut(&mut Core, &mut Ram)| after(0, operation);
    nothing(&mut |core, _| core.receive(Broadcast::All));
    nothing(&mut |core, _| assert_eq!(core.take_broadcast(), None));
    nothing(&mut |core, _| core.restore(&core.words()));
    nothing(&mut |core, past| assert!(core.translate(past, 0x1000, Access::Fetch).is_err()));
    nothing(&mut |core, past| assert!(core.data_pa(past, 0x2000).is_err()));
    nothing(&mut |core, past| assert!(core.fetch_pa(past, 0x2000).is_err()));
    nothing(&mut |core, past| assert!(core.load(past, 0x2000, Width::Word).is_err()));
    nothing(&mut |core, past| assert!(core.store(past, 0x2000, Width::Word, 1).is_err()));
    nothing(&mut |core, past| assert!(core.fetch(past, 0x2000).is_err()));
    nothing(&mut |core, past| assert!(core.system(past, SystemOperation::dc_zva(1)).is_err()));
    nothing(&mut |core, past| assert!(core.load_bytes(past, 0x2000, 3).is_err()));
    nothing(&mut |core, _| assert!(core.write_register(0, 0).is_err()));
    nothing(&mut |core, _| core.write_register(registers::VBAR_EL1, 0x800).unwrap());
    nothing(&mut |core, _| assert!(core.set_level(4).is_err()));
    nothing(&mut |core, _| core.set_level(Level::EL1).unwrap());
    nothing(&mut |core, _| core.set_unprivileged(false).unwrap());
    nothing(&mut |core, _| core.set_general(1, 1).unwrap());
    nothing(&mut |core, _| core.take(&Exception::Svc(0)).unwrap());
    let mut ram = Ram::new(BASE, &mut few);
    core.load(&ram, BASE, Width::Word).unwrap_err();
    assert!(core.system(&mut ram, SystemOperation::TLBI_ALLE2).is_err());
    assert_eq!(reads(&core), 0);
}

/// The report is beside the core: not compared, not saved, and none of a clone; what only looks leaves it.
#[test]
fn it_is_no_part_of_the_core() {
    let mut bytes = bytes();
    let ram = Ram::new(BASE, &mut bytes);
    let mut core = core();
    core.load(&ram, 0x1000, Width::Word).unwrap();
    let mut other = core.clone();
    assert!(other == core && other.words() == core.words());
    assert_eq!((reads(&core), reads(&other)), (3, 0));
    core.census(&ram, 0, 16).unwrap();
    assert_eq!(reads(&core), 3);
    other.load(&ram, 0x2000, Width::Word).unwrap();
    other.restore(&core.words());
    assert_eq!((reads(&other), other == core), (0, true));
}
