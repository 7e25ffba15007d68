//! What a cluster of this crate has beside the calls of the library: regions of RAM, devices, translations at hand.
mod common;

use a72::{Access, Check, Cluster, Memory, Ram, Stop, SystemOperation, Width};
use common::{BASE, bytes, core};

/// RAM, and outside it a device that reads as its address.
struct Board {
    ram: Vec<u8>,
    written: Vec<(u64, Width, u64)>,
}

impl Memory for Board {
    fn ram(&mut self) -> Ram<'_> {
        Ram::new(BASE, &mut self.ram)
    }

    fn read(&mut self, address: u64, _: Width) -> Option<u64> {
        Some(address)
    }

    fn write(&mut self, address: u64, width: Width, value: u64) -> bool {
        self.written.push((address, width, value));
        true
    }
}

fn cluster() -> Box<Cluster> {
    let mut cluster = Box::new(Cluster::new());
    for n in 0..4 {
        cluster.put(n, &core()).unwrap();
    }
    cluster
}

fn drops(cluster: &Cluster, n: u64) -> u64 {
    cluster.core(n).unwrap().counters().drops
}

/// Page 4 lies at the device.
#[test]
fn devices_answer_each_core() {
    let (ram, written) = (bytes(), vec![]);
    let mut board = Board { ram, written };
    let mut cluster = cluster();
    assert_eq!(
        cluster.load_from(1, &mut board, 0x4010, Width::Double),
        Ok(0x8000_0010)
    );
    assert_eq!(cluster.core(1).unwrap().abort_pa(), 0x8000_0010);
    assert_eq!(cluster.core(2).unwrap().abort_pa(), 0);
    assert_eq!(cluster.fetch_from(1, &mut board, 0x4020), Ok(0x8000_0020));
    assert_eq!(cluster.store_to(2, &mut board, 0x4FFF, Width::Byte, 7), Ok(()));
    assert_eq!(board.written, [(0x8000_0FFF, Width::Byte, 7)]);
    // A TLBI reaches the others here too.
    cluster.set_general(3, 1, 4).unwrap();
    let operation = SystemOperation::tlbi_vae1is(1);
    cluster.system_on(3, &mut board, operation).unwrap();
    assert!((0..4).all(|n| drops(&cluster, n) == 1));
    let no = Stop::Refused(Check::Core);
    assert_eq!(cluster.load_from(4, &mut board, 0x4010, Width::Double), Err(no));
    assert_eq!(cluster.store_to(4, &mut board, 0x4010, Width::Double, 1), Err(no));
    assert_eq!(cluster.fetch_from(4, &mut board, 0x4010), Err(no));
    assert_eq!(cluster.system_on(4, &mut board, operation), Err(no));
    assert_eq!(board.written.len(), 1);
}

/// The second megabyte is a region beside the window: page 6 lies there.
#[test]
fn regions_are_there_for_each_core() {
    let (mut window, mut region) = (bytes(), vec![0; 0x1000]);
    let mut banks = [
        Ram::new(BASE, &mut window),
        Ram::new(BASE + 0x10_0000, &mut region),
    ];
    assert!(banks[0].write_u64(BASE + 0x3030, (BASE + 0x10_0000) | 0x403));
    let mut cluster = cluster();
    for n in 0..4 {
        let va = 0x6000 + 8 * n;
        assert_eq!(
            cluster.store_to(n, &mut banks[..], va, Width::Double, n + 1),
            Ok(())
        );
        let other = (n + 1) % 4;
        assert_eq!(
            cluster.load_from(other, &mut banks[..], va, Width::Double),
            Ok(n + 1)
        );
    }
    assert_eq!(banks[1].read_u64(BASE + 0x10_0018), Some(4));
}

/// A translation that is at hand is a call: it hands on what a core has that was put in. One that is not changes nothing.
#[test]
fn translations_at_hand() {
    let mut bytes = bytes();
    let mut ram = Ram::new(BASE, &mut bytes);
    let mut cluster = cluster();
    let mut core = core();
    core.load(&ram, 0x2000, Width::Word).unwrap();
    core.fetch(&ram, 0x5000).unwrap();
    core.set_general(1, 1).unwrap();
    core.system(&mut ram, SystemOperation::tlbi_vae1is(1)).unwrap();
    for fetch in [false, true] {
        cluster.put(0, &core).unwrap();
        let before = drops(&cluster, 2);
        assert_eq!(cluster.translate_at_hand(0, 0x1000, Access::Read), None);
        assert_eq!(cluster.fetch_at_hand(0, 0x1000), None);
        assert_eq!(drops(&cluster, 2), before);
        let answer = if fetch {
            cluster.fetch_at_hand(0, 0x5008)
        } else {
            cluster.translate_at_hand(0, 0x2008, Access::Read)
        };
        let page = if fetch { 0xA008 } else { 0x9008 };
        assert_eq!(answer, Some(Ok(BASE + page)));
        assert_eq!(drops(&cluster, 2), before + 1);
        assert_eq!(cluster.core(0).unwrap().broadcast(), None);
    }
}

#[test]
fn a_cluster_is_send_and_sync() {
    fn shared<T: Send + Sync>() {}
    shared::<Cluster>();
}
