//! Four cores over one RAM, beside four single cores that hand over by themselves.
#[path = "common/chance.rs"]
mod chance;
mod common;

use a72::{
    Access, Cluster, Core, Exception, Ram, Report, Stop, SystemOperation, View, WindowsError, registers,
};
use chance::chance;
use common::{BASE, bytes, core};
use std::fmt::Debug;

/// Four cores at EL1, with stage 1 on.
fn cluster() -> Box<Cluster> {
    let mut cluster = Box::new(Cluster::new());
    for n in 0..4 {
        cluster.put(n, &core()).unwrap();
    }
    cluster
}

/// What a core of the cluster holds.
fn held(cluster: &Cluster, n: u64) -> Core {
    cluster.core(n).unwrap().clone()
}

#[derive(Clone, Copy, Debug)]
enum Op {
    Translate(u64, Access),
    DataPa(u64),
    FetchPa(u64),
    Load(u64, u64),
    Store(u64, u64, u64),
    Fetch(u64),
    System(SystemOperation),
    Register(registers::Key, u64),
    Level(u64),
    Mark(bool),
    General(u64, u64),
    Take(u64),
    Census(u64, u64),
    Windows(u64, u64),
    Flip(u64, Access),
}

/// Whether an error is that of a call that was refused.
trait Refuses: Debug {
    fn refuses(&self) -> bool;
}

impl Refuses for Stop {
    fn refuses(&self) -> bool {
        !matches!(self, Stop::Fault(_))
    }
}

impl Refuses for WindowsError {
    fn refuses(&self) -> bool {
        true
    }
}

/// An answer, and whether the call was refused.
fn told<T: Debug, E: Refuses>(answer: Result<T, E>) -> (String, bool) {
    let refused = matches!(&answer, Err(stop) if stop.refuses());
    (format!("{answer:?}"), refused)
}

/// Windows of so many pages, the second a page further on than the first.
fn list(start: u64, pages: u64) -> Vec<u8> {
    let mut bytes = vec![2, 0];
    bytes.extend([start, start + 0x1000].iter().flat_map(|at| at.to_le_bytes()));
    bytes.extend([pages as u8, 0, 1, 0]);
    bytes
}

/// An operation on a core, or on that of a cluster which has a number.
macro_rules! asked {
    ($op:expr, $ram:expr, $to:expr $(, $n:expr)?) => {
        match $op {
            Op::Translate(va, access) => told($to.translate($($n,)? $ram, va, access)),
            Op::DataPa(va) => told($to.data_pa($($n,)? $ram, va)),
            Op::FetchPa(va) => told($to.fetch_pa($($n,)? $ram, va)),
            Op::Load(va, size) => told($to.load_bytes($($n,)? $ram, va, size)),
            Op::Store(va, size, value) => told($to.store_bytes($($n,)? $ram, va, size, value)),
            Op::Fetch(va) => told($to.fetch($($n,)? $ram, va)),
            Op::System(operation) => told($to.system($($n,)? $ram, operation)),
            Op::Register(key, value) => told($to.write_register($($n,)? key, value)),
            Op::Level(level) => told($to.set_level($($n,)? level)),
            Op::Mark(on) => told($to.set_unprivileged($($n,)? on)),
            Op::General(number, value) => told($to.set_general($($n,)? number, value)),
            Op::Take(immediate) => told($to.take($($n,)? &Exception::Svc(immediate as u16))),
            Op::Census(first, pages) => told($to.census($($n,)? $ram, first, pages)),
            Op::Windows(start, pages) => told($to.windows_of_bytes($($n,)? $ram, &list(start, pages))),
            Op::Flip(va, access) => told($to.flip($($n,)? $ram, va, access, View::Privileged)),
        }
    };
}

/// An operation by chance: loads and TLBIs of both kinds above all.
fn drawn(draw: &mut impl FnMut(u64) -> u64) -> Op {
    let va = ((1 + draw(5)) << 12) + 8 * draw(0x200);
    let access = [Access::Read, Access::Write, Access::Fetch][draw(3) as usize];
    let rt = draw(4);
    match draw(40) {
        0..=7 => Op::Load(va, [1, 2, 4, 8, 8, 3][draw(6) as usize]),
        8..=11 => Op::Store(va, [1, 2, 4, 8, 8, 3][draw(6) as usize], draw(u64::MAX)),
        12..=14 => Op::Fetch(va),
        15..=16 => Op::Translate(va, access),
        17 => Op::DataPa(va),
        18 => Op::FetchPa(va),
        19..=24 => Op::System(SystemOperation::new(
            0,
            8,
            3,
            [0, 1, 2, 3, 5, 7][draw(6) as usize],
            rt,
        )),
        25..=27 => Op::System(SystemOperation::new(
            0,
            8,
            7,
            [0, 1, 2, 3, 5, 7][draw(6) as usize],
            rt,
        )),
        28 => Op::System(SystemOperation::new(
            4,
            8,
            [0, 3, 7][draw(3) as usize],
            draw(8),
            rt,
        )),
        29 => Op::System(SystemOperation::at_s1e1r(rt)),
        30 => Op::System(SystemOperation::dc_zva(rt)),
        31 => Op::Register(registers::TTBR0_EL1, (BASE + 0x1000) | draw(2) << 48),
        32 => Op::Level([0, 1, 1, 1, 1, 3, 4][draw(7) as usize]),
        33 => Op::Mark(draw(4) == 0),
        34..=35 => Op::General(draw(5) * 8 % 33, draw(6) | draw(2) << 48 | draw(2) << 12),
        36 => Op::Take(draw(9)),
        37 => Op::Census(va, 1 + draw(8)),
        38 => Op::Windows(va & !0xFFF, 1 + draw(2)),
        _ => Op::Flip(va, access),
    }
}

/// All four cores, every answer, every report and RAM are those of four single cores of which each hands what it has
/// pending to the others, where its operation was not refused.
#[test]
fn four_cores_that_hand_over_by_themselves() {
    let mut draw = chance();
    let (mut one, mut two) = (bytes(), bytes());
    let mut cluster = cluster();
    let mut single = [0; 4].map(|_| core());
    let mut reports = [Report::default(); 4];
    let (mut shared, mut kept) = (0, 0);
    for step in 0..4_000 {
        let (mut ram, mut other) = (Ram::new(BASE, &mut one), Ram::new(BASE, &mut two));
        if step % 7 == 0 {
            let at = BASE + 0x3000 + 8 * (1 + draw(5));
            let descriptor =
                (BASE + 0x8000 + draw(3) * 0x1000) | [0x403, 0x443, 0xC03, 0x483][draw(4) as usize];
            assert!(ram.write_u64(at, descriptor) && other.write_u64(at, descriptor));
        }
        let n = draw(4);
        let i = n as usize;
        if step % 50 == 0 {
            // A core with a mark, as one that was saved so.
            let mut core = held(&cluster, n);
            core.set_level(1).unwrap();
            core.system(&mut ram, SystemOperation::tlbi_vae1is(2)).unwrap();
            cluster.put(n, &core).unwrap();
            single[i] = core;
            reports[i] = Report::default();
        }
        let op = drawn(&mut draw);
        let answer = asked!(op, &mut ram, cluster, n);
        assert_eq!(asked!(op, &mut other, single[i]), answer, "{step}: {op:?}");
        // What only looks reports nothing, and a core in a cluster keeps its report where another's TLBI comes.
        if !matches!(op, Op::Census(..) | Op::Windows(..) | Op::Flip(..)) {
            reports[i] = single[i].report();
        }
        if let Some(pending) = single[i].broadcast() {
            if answer.1 {
                kept += 1;
            } else {
                shared += 1;
                single[i].take_broadcast();
                for (k, core) in single.iter_mut().enumerate() {
                    if k != i {
                        core.receive(pending);
                    }
                }
            }
        }
        assert_eq!(cluster.report(n), Ok(reports[i]), "{step}: {op:?}");
        for (k, core) in (0..4).zip(&single) {
            assert!(held(&cluster, k) == *core, "{step}: core {k} after {op:?} on {n}");
        }
        assert!(ram.bytes == other.bytes, "{step}: {op:?}");
    }
    assert!(shared > 300 && kept > 5, "{shared} handed on, {kept} kept");
    assert!(single.iter().all(|core| core.counters().hits() > 100));
}
