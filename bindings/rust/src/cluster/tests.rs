//! The cluster beside the text of the proved one.
use super::Cluster;
use crate::stage1::cluster;
use crate::stage1::cpu::call::Call;
use crate::stage1::system::decode::Encoding;
use crate::stage1::tlb::work::Work;
use crate::{Core, Ram, Stop, SystemOperation, registers};
use alloc::boxed::Box;

/// A core at EL1 by tables at 0x4000_0000.
fn core() -> Core {
    let mut core = Core::new();
    core.write_register(registers::TCR_EL1, 25 | 2 << 30).unwrap();
    core.write_register(registers::TTBR0_EL1, 0x4000_0000).unwrap();
    core.write_register(registers::SCTLR_EL1, 1).unwrap();
    core.set_level(1).unwrap();
    core
}

/// Calls on this cluster, and the same on the text of the proved crate: all four cores are the same after each, also of
/// a core that was put in with something pending, and of numbers above 3.
#[test]
fn it_hands_on_what_the_proved_text_hands_on() {
    let mut bytes = alloc::vec![0; 0x1_0000];
    let mut ram = Ram::new(0x4000_0000, &mut bytes);
    for (at, word) in [(0, 0x4000_1003), (0x1000, 0x4000_2003)] {
        assert!(ram.write_u64(0x4000_0000 + at, word));
    }
    let (mut one, mut text) = (Box::new(Cluster::new()), Box::new(cluster::Cluster::new()));
    for n in 0..4 {
        one.put(n, &core()).unwrap();
        assert!(text.put(n, &core().core).is_ok());
    }
    let mut word = 1u64;
    let mut drawn = |n: u64| {
        word = word
            .wrapping_mul(6364136223846793005)
            .wrapping_add(1442695040888963407);
        (word >> 33) % n
    };
    for step in 0..4_000 {
        let (n, page) = (drawn(5), 1 + drawn(4));
        ram.write_u64(0x4000_2000 + 8 * page, 0x4000_3403 + 0x1000 * drawn(4));
        if step % 20 == 0 && n < 4 {
            let mut core = one.core(n).unwrap().clone();
            core.system(&mut ram, SystemOperation::TLBI_VMALLE1IS).unwrap();
            one.put(n, &core).unwrap();
            assert!(text.put(n, &core.core).is_ok());
        }
        let crm = [3, 7, 16][drawn(3) as usize];
        let [op1, crn, op2, rt] = [0, 8, drawn(8), 1];
        let (stop, call): (Result<(), Stop>, Call) = match drawn(5) {
            0 | 1 => {
                let operation = SystemOperation::new(op1, crn, crm, op2, rt);
                let call = Call::System(Encoding {
                    op1,
                    crn,
                    crm,
                    op2,
                    rt,
                });
                (one.system(n, &mut ram, operation), call)
            }
            2 => (one.set_general(n, 1, page), Call::General(1, page)),
            3 => (one.set_level(n, 1 + page), Call::Level(1 + page)),
            _ => {
                let (va, size) = (page << 12, 1 + page);
                let load = one.load_bytes(n, &ram, va, size);
                (load.map(drop), Call::Load(va, size))
            }
        };
        let reply = text.step(n, ram.base, ram.bytes, call, &mut Work::none());
        assert_eq!(
            matches!(stop, Err(stop) if stop.refuses()),
            reply.refuses(),
            "{step}"
        );
        for (ours, proved) in one.cores.iter().zip(&text.cores) {
            assert!(ours.core == *proved, "{step}: {call:?} on {n}");
        }
        let marked = text.core(n).is_ok_and(|core| core.tlb.broadcast.is_some());
        assert!(!marked || reply.refuses());
    }
    assert!(one.cores.iter().all(|core| core.counters().flushes > 100));
}
