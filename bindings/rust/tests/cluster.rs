//! Four cores over one RAM: what one of them asks of the others.
mod common;

use a72::{
    Access, Check, Cluster, Core, Exception, Flags, Level, Ram, Report, Status, Stop, SystemOperation, View,
    Width, WindowsError, registers,
};
use common::{BASE, bytes, core};

/// The descriptor of page 1.
const PAGE: u64 = BASE + 0x3008;

/// Four cores at EL1, with stage 1 on.
fn cluster() -> Box<Cluster> {
    let mut cluster = Box::new(Cluster::new());
    for n in 0..4 {
        cluster.put(n, &core()).unwrap();
    }
    cluster
}

/// What a core of the cluster holds.
fn held(cluster: &Cluster, n: u64) -> Core {
    cluster.core(n).unwrap().clone()
}

/// A core that has a TLBI VAE1IS of page 1 pending.
fn marked() -> Core {
    let mut core = core();
    core.set_general(1, 1).unwrap();
    let mut ram = Ram::new(BASE, &mut []);
    core.system(&mut ram, SystemOperation::tlbi_vae1is(1)).unwrap();
    assert!(core.broadcast().is_some());
    core
}

#[test]
fn fresh() {
    let mut cluster = Cluster::default();
    assert!((0..4).all(|n| held(&cluster, n) == Core::new()));
    let copy = cluster.clone();
    assert!(copy == cluster);
    cluster.set_pc(2, 4).unwrap();
    assert!(copy != cluster && held(&cluster, 3) == Core::new());
    assert_eq!(cluster.core(2).unwrap().pc(), 4);
    assert!(format!("{cluster:?}").starts_with("Cluster { cores: [Core { level: 3, pc: 0x0, "));
}

/// Each core has a page cached; one makes a TLBI of it, after its table has changed.
#[test]
fn every_sender_reaches_every_other_core() {
    for (sender, shared) in (0..4).flat_map(|n| [(n, true), (n, false)]) {
        let mut bytes = bytes();
        let mut ram = Ram::new(BASE, &mut bytes);
        let mut cluster = cluster();
        for n in 0..4 {
            assert_eq!(
                cluster.translate(n, &ram, 0x1234, Access::Read),
                Ok(BASE + 0x8234)
            );
        }
        ram.write_u64(PAGE, (BASE + 0xB000) | 0x403);
        cluster.set_general(sender, 1, 1).unwrap();
        let operation = if shared {
            SystemOperation::tlbi_vae1is(1)
        } else {
            SystemOperation::tlbi_vae1(1)
        };
        cluster.system(sender, &mut ram, operation).unwrap();
        for n in 0..4 {
            let forgets = shared || n == sender;
            let core = held(&cluster, n);
            assert_eq!(core.broadcast(), None);
            assert_eq!(core.counters().drops, u64::from(forgets));
            let pa = if forgets { BASE + 0xB234 } else { BASE + 0x8234 };
            assert_eq!(cluster.translate(n, &ram, 0x1234, Access::Read), Ok(pa));
        }
    }
}

/// Whatever else the call would miss; and no core changes.
#[test]
fn the_number_of_a_core_comes_first() {
    let mut few = [0; 16];
    let mut past = Ram::new(u64::MAX - 14, &mut few);
    let mut cluster = cluster();
    for n in 0..4 {
        cluster.put(n, &marked()).unwrap();
    }
    let before = cluster.clone();
    for n in [4, 5, 1 << 32, u64::MAX] {
        fn no<T>() -> Result<T, Stop> {
            Err(Stop::Refused(Check::Core))
        }
        let access = Access::Read;
        assert_eq!(cluster.translate(n, &past, 0, access), no());
        assert_eq!(cluster.data_pa(n, &past, 0), no());
        assert_eq!(cluster.fetch_pa(n, &past, 0), no());
        assert_eq!(cluster.load(n, &past, 0, Width::Byte), no());
        assert_eq!(cluster.load_bytes(n, &past, 0, 3), no());
        assert_eq!(cluster.store(n, &mut past, 0, Width::Byte, 0), no());
        assert_eq!(cluster.store_bytes(n, &mut past, 0, 3, 0), no());
        assert_eq!(cluster.fetch(n, &past, 0), no());
        assert_eq!(
            cluster.system(n, &mut past, SystemOperation::new(8, 16, 16, 8, 32)),
            no()
        );
        assert_eq!(cluster.write_register(n, 0, 0), no());
        assert_eq!(cluster.set_level(n, 4), no());
        assert_eq!(cluster.set_unprivileged(n, true), no());
        assert_eq!(cluster.set_general(n, 32, 0), no());
        assert_eq!(cluster.take(n, &Exception::Svc(1)), no());
        assert_eq!(cluster.census(n, &past, 0, u64::MAX), no());
        assert_eq!(cluster.flip(n, &mut past, 0, access, View::User), no());
        let none = Err(WindowsError::Refused(Check::Core));
        assert_eq!(cluster.windows_of_bytes(n, &past, &[1]), none);
        assert_eq!(cluster.translate_at_hand(n, 0x1000, access), None);
        assert_eq!(cluster.fetch_at_hand(n, 0x1000), None);
        assert_eq!(cluster.put(n, &Core::new()), Err(Check::Core));
        assert_eq!(cluster.set_pc(n, 4), Err(Check::Core));
        assert_eq!(cluster.set_pstate(n, 4), Err(Check::Core));
        assert_eq!(cluster.set_generation(n, 4), Err(Check::Core));
        assert_eq!(cluster.report(n), Err(Check::Core));
        assert!(matches!(cluster.core(n), Err(Check::Core)));
        assert!(cluster == before);
    }
    assert_eq!(Check::Core.number(), 8);
    assert_eq!(Check::from_number(8), Some(Check::Core));
    assert_eq!(Stop::Refused(Check::Core).to_string(), "refused by check 8");
}

/// A core that is put in with it keeps what is pending, until its next call that is not refused.
#[test]
fn a_refused_call_hands_nothing_on() {
    let mut bytes = bytes();
    let mut ram = Ram::new(BASE, &mut bytes);
    let mut few = [0; 16];
    let past = Ram::new(u64::MAX - 14, &mut few);
    let mut cluster = cluster();
    let unmapped = [1, 0, 0, 0x30, 0, 0, 0, 0, 0, 0, 1, 0];
    for n in 0..4 {
        assert!(cluster.load(n, &ram, 0x1000, Width::Word).is_ok());
    }
    cluster.put(2, &marked()).unwrap();
    let before = cluster.clone();
    assert!(cluster.load(2, &past, 0x1000, Width::Word).is_err());
    assert!(cluster.load_bytes(2, &ram, 0x1000, 3).is_err());
    assert!(cluster.set_level(2, 4).is_err());
    assert!(cluster.set_general(2, 32, 0).is_err());
    assert!(cluster.write_register(2, 0, 0).is_err());
    assert!(cluster.census(2, &ram, 0, 65_537).is_err());
    assert!(cluster.windows_of_bytes(2, &ram, &[1]).is_err());
    assert!(cluster.windows_of_bytes(2, &ram, &unmapped).is_err());
    let unimplemented = cluster.system(2, &mut ram, SystemOperation::TLBI_ALLE2);
    assert_eq!(unimplemented, Err(Stop::Unimplemented));
    // Nor does a call on another core, or a part that is set by hand.
    assert!(cluster.load(1, &ram, 0x1000, Width::Word).is_ok());
    cluster.set_pc(2, 0).unwrap();
    assert!(cluster == before);
    let mut user = marked();
    user.set_level(Level::EL0).unwrap();
    cluster.put(2, &user).unwrap();
    let undefined = cluster.write_register(2, registers::VBAR_EL1, 0);
    assert_eq!(undefined, Err(Stop::Undefined));
    assert!(held(&cluster, 2) == user);
    // A fault does, and whatever is done.
    let done: [fn(&mut Cluster, &mut Ram) -> bool; 6] = [
        |cluster, ram| matches!(cluster.load(2, ram, 0x3000, Width::Word), Err(Stop::Fault(_))),
        |cluster, ram| cluster.data_pa(2, ram, 0x3000) == Ok(None),
        |cluster, _| cluster.set_unprivileged(2, false).is_ok(),
        |cluster, ram| cluster.census(2, ram, 0, 1).is_ok(),
        |cluster, ram| cluster.windows_of_bytes(2, ram, &[0, 0]) == Ok(None),
        |cluster, ram| cluster.flip(2, ram, 0x1000, Access::Read, View::User).is_ok(),
    ];
    for call in done {
        let mut cluster = before.clone();
        assert!(call(&mut cluster, &mut ram));
        for n in 0..4 {
            let core = held(&cluster, n);
            assert_eq!((core.broadcast(), core.counters().drops), (None, 1), "core {n}");
        }
    }
}

/// What another's TLBI asks of a core moves its cache and no more: its report, its level and what it has pending stay.
#[test]
fn what_a_receiver_keeps() {
    let mut bytes = bytes();
    let mut ram = Ram::new(BASE, &mut bytes);
    let mut cluster = cluster();
    cluster.load(1, &ram, 0x1000, Width::Word).unwrap();
    cluster.put(3, &marked()).unwrap();
    cluster.set_level(0, Level::EL1).unwrap();
    let before = [1, 3].map(|n| held(&cluster, n));
    cluster
        .system(0, &mut ram, SystemOperation::TLBI_VMALLE1IS)
        .unwrap();
    assert_eq!(cluster.report(1), Ok(Report { reads: 3 }));
    assert_eq!(cluster.core(1).unwrap().report(), Report { reads: 3 });
    assert_eq!(cluster.report(0), Ok(Report { reads: 0 }));
    for (n, mut other) in [1, 3].into_iter().zip(before) {
        let pending = other.broadcast();
        other.receive(a72::Broadcast::All);
        assert!(held(&cluster, n) == other && other.broadcast() == pending);
    }
    // A core that is put in has done nothing yet.
    cluster.put(1, &core()).unwrap();
    assert_eq!(cluster.report(1), Ok(Report { reads: 0 }));
}

#[test]
fn parts_are_set_by_hand() {
    let mut bytes = bytes();
    let ram = Ram::new(BASE, &mut bytes);
    let mut cluster = cluster();
    let mut single = core();
    cluster.load(3, &ram, 0x1000, Width::Word).unwrap();
    single.load(&ram, 0x1000, Width::Word).unwrap();
    let flags = Flags {
        nzcv: 5,
        daif: 10,
        sp_sel: true,
    };
    cluster.set_flags(3, flags).unwrap();
    single.set_flags(flags);
    assert!(held(&cluster, 3) == single);
    cluster.set_pstate(3, 0x8000_0040).unwrap();
    single.set_pstate(0x8000_0040);
    cluster.set_pc(3, 0x1004).unwrap();
    single.set_pc(0x1004);
    cluster.set_generation(3, 7).unwrap();
    single.set_generation(7);
    assert!(held(&cluster, 3) == single);
    assert_eq!(cluster.report(3), Ok(Report { reads: 3 }));
    cluster.take(3, &Exception::Svc(2)).unwrap();
    single.take(&Exception::Svc(2)).unwrap();
    assert!(held(&cluster, 3) == single);
}

/// A page is the sender's: of one with pages of 4 KiB it is 4 KiB of a receiver's page of 64 KiB.
#[test]
fn what_is_received_is_the_sender_s_reading() {
    let mut bytes = bytes();
    let mut ram = Ram::new(BASE, &mut bytes);
    ram.write_u64(BASE + 0x2_0000, (BASE + 0x3_0000) | 3);
    ram.write_u64(BASE + 0x3_0000, (BASE + 0x4_0000) | 0x403);
    let mut cluster = cluster();
    cluster
        .write_register(1, registers::TTBR0_EL1, BASE + 0x2_0000)
        .unwrap();
    cluster
        .write_register(1, registers::TCR_EL1, 25 | 1 << 14 | 2 << 30)
        .unwrap();
    for va in [0x1000, 0x2000] {
        assert_eq!(cluster.load(1, &ram, va, Width::Double), Ok(0));
    }
    cluster.set_general(0, 1, 1).unwrap();
    cluster
        .system(0, &mut ram, SystemOperation::tlbi_vae1is(1))
        .unwrap();
    let counted = |cluster: &Cluster| {
        let counters = held(cluster, 1).counters();
        (counters.walks(), counters.hits())
    };
    assert_eq!(counted(&cluster), (2, 0));
    for (va, after) in [(0x2000, (2, 1)), (0x1000, (3, 1))] {
        assert_eq!(cluster.load(1, &ram, va, Width::Double), Ok(0));
        assert_eq!(counted(&cluster), after);
    }
}

#[test]
fn each_core_has_registers_of_its_own() {
    let mut bytes = bytes();
    let ram = Ram::new(BASE, &mut bytes);
    let mut cluster = cluster();
    cluster.set_level(1, Level::EL0).unwrap();
    cluster.write_register(2, registers::SCTLR_EL1, 0).unwrap();
    assert_eq!(
        cluster.translate(0, &ram, 0x1000, Access::Read),
        Ok(BASE + 0x8000)
    );
    let Err(Stop::Fault(fault)) = cluster.translate(1, &ram, 0x1000, Access::Read) else {
        panic!("EL0 may not read the page");
    };
    assert_eq!(fault.status, Status(0x0F));
    assert_eq!(cluster.translate(2, &ram, 0x1000, Access::Read), Ok(0x1000));
    cluster.take(1, &fault.exception()).unwrap();
    let far = registers::FAR_EL1;
    assert_eq!(
        [0, 1].map(|n| cluster.core(n).unwrap().register(far)),
        [Some(0), Some(0x1000)]
    );
}
