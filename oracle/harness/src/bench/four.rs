//! Four cores over one RAM: four of pimu's under the rule, the library's cluster, and the plain one. Calls go to one of
//! them.
use super::rust::Quick;
use super::{fault, repeat, Work, DONE, STORED};
use crate::cluster::CORES;
use crate::ffi::{boxed, saved, state_of, Held, HeldCluster};
use crate::plain::access;
use crate::rust::RustCore;
use crate::state::LevelCounters;
use crate::{Core, Ram, State};
use a72::{Access, Cluster, Ram as Window, Status, Stop, SystemOperation};
use pimu::aarch64::access::{self as own, Halt};
use pimu::aarch64::{Cpu, Exception};
use std::hint::black_box;

/// The core that is called.
const CALLED: u64 = 1;

/// What a cluster's case has on its three sides.
pub struct Quartet {
    cpus: Box<[Cpu; CORES]>,
    levels: [[LevelCounters; 4]; CORES],
    cluster: HeldCluster,
    plain: Box<Cluster>,
}

/// What is refused hands nothing on.
fn refuses<T>(answer: &Result<T, Halt>) -> bool {
    matches!(
        answer,
        Err(Halt::Unimplemented | Halt::Exception(Exception::Undefined))
    )
}

/// What core `i` leaves pending goes to the other three.
#[cold]
#[inline(never)]
fn deliver(cpus: &mut [Cpu; CORES], i: usize) {
    let Some(what) = cpus[i].tlb.broadcast.take() else {
        return;
    };
    for (k, cpu) in cpus.iter_mut().enumerate() {
        if k != i {
            cpu.tlb.invalidate(what);
        }
    }
}

/// A call on the core of this number; none where there is none.
#[inline(always)]
fn on<T>(
    cpus: &mut [Cpu; CORES],
    n: u64,
    call: impl FnOnce(&mut Cpu) -> T,
    refused: impl FnOnce(&T) -> bool,
) -> Option<T> {
    let i = usize::try_from(n).ok()?;
    let cpu = cpus.get_mut(i)?;
    let answer = call(cpu);
    if cpu.tlb.broadcast.is_some() && !refused(&answer) {
        deliver(cpus, i);
    }
    Some(answer)
}

#[inline(never)]
fn translate(cpus: &mut [Cpu; CORES], n: u64, m: &mut Quick, va: u64, kind: u8) -> Option<Result<u64, u8>> {
    on(cpus, n, |c| own::mmu::translate(c, m, va, kind), |_| false)
}

#[inline(never)]
fn load(cpus: &mut [Cpu; CORES], n: u64, m: &mut Quick, va: u64, size: u32) -> Option<Result<u64, Halt>> {
    on(cpus, n, |c| own::load(c, m, va, size), refuses)
}

#[inline(never)]
fn store(
    cpus: &mut [Cpu; CORES],
    n: u64,
    m: &mut Quick,
    va: u64,
    size: u32,
    v: u64,
) -> Option<Result<(), Halt>> {
    on(cpus, n, |c| own::store(c, m, va, size, v), refuses)
}

#[inline(never)]
fn fetch(cpus: &mut [Cpu; CORES], n: u64, m: &mut Quick, va: u64) -> Option<Result<u32, Halt>> {
    on(cpus, n, |c| own::fetch(c, m, va), refuses)
}

#[inline(never)]
fn system(cpus: &mut [Cpu; CORES], n: u64, m: &mut Quick, fields: [u32; 5]) -> Option<Result<(), Halt>> {
    on(cpus, n, |c| own::system_op(c, fields, m), refuses)
}

#[inline(always)]
fn summed(r: Option<Result<u64, Halt>>) -> u64 {
    match r {
        Some(Ok(v)) => v,
        Some(Err(Halt::Exception(Exception::DataAbort { addr, fsc, .. }))) => fault(fsc.into(), addr),
        Some(Err(Halt::Exception(Exception::InsnAbort { fsc, .. }))) => fault(fsc.into(), 0),
        _ => unreachable!(),
    }
}

fn run_rust(work: Work, args: [u64; 2], cpus: &mut [Cpu; CORES], ram: &mut Ram, times: usize) -> u64 {
    let n = black_box(CALLED);
    let m = &mut Quick {
        base: black_box(ram.base),
        bytes: &mut ram.bytes,
    };
    match black_box(work) {
        Work::Translate(kind) => repeat(times, args, |va| match translate(cpus, n, m, va, kind) {
            Some(Ok(pa)) => pa,
            Some(Err(status)) => fault(status.into(), 0),
            None => unreachable!(),
        }),
        Work::Load(size) => repeat(times, args, |va| summed(load(cpus, n, m, va, size))),
        Work::Store(size) => {
            let v = black_box(STORED);
            let done = |r: Option<Result<(), Halt>>| summed(r.map(|r| r.map(|()| DONE)));
            repeat(times, args, |va| done(store(cpus, n, m, va, size, v)))
        }
        Work::Fetch => repeat(times, args, |va| {
            summed(fetch(cpus, n, m, va).map(|r| r.map(u64::from)))
        }),
        Work::System([op1, crn, crm, op2]) => repeat(times, args, |rt| {
            let r = system(cpus, n, m, [op1, crn, crm, op2, rt as u32]);
            summed(r.map(|r| r.map(|()| DONE)))
        }),
        _ => unreachable!("no case of four cores"),
    }
}

mod plain {
    use super::*;

    #[inline(never)]
    fn translate(c: &mut Cluster, n: u64, m: &Window, va: u64, access: Access) -> Result<u64, Stop> {
        c.translate(n, m, va, access)
    }

    #[inline(never)]
    fn load(c: &mut Cluster, n: u64, m: &Window, va: u64, size: u32) -> Result<u64, Stop> {
        c.load_bytes(n, m, va, size.into())
    }

    #[inline(never)]
    fn store(c: &mut Cluster, n: u64, m: &mut Window, va: u64, size: u32, v: u64) -> Result<(), Stop> {
        c.store_bytes(n, m, va, size.into(), v)
    }

    #[inline(never)]
    fn fetch(c: &mut Cluster, n: u64, m: &Window, va: u64) -> Result<u32, Stop> {
        c.fetch(n, m, va)
    }

    #[inline(never)]
    fn system(c: &mut Cluster, n: u64, m: &mut Window, operation: SystemOperation) -> Result<(), Stop> {
        c.system(n, m, operation)
    }

    #[inline(always)]
    fn summed(r: Result<u64, Stop>) -> u64 {
        match r {
            Ok(v) => v,
            Err(Stop::Fault(f)) => {
                let Status(status) = f.status;
                fault(
                    status.into(),
                    if f.access == Access::Fetch { 0 } else { f.address },
                )
            }
            Err(_) => unreachable!(),
        }
    }

    pub fn run(work: Work, args: [u64; 2], c: &mut Cluster, ram: &mut Ram, times: usize) -> u64 {
        let n = black_box(CALLED);
        let m = &mut Window::new(black_box(ram.base), &mut ram.bytes);
        match black_box(work) {
            Work::Translate(kind) => {
                let access = access(kind);
                repeat(times, args, |va| match translate(c, n, m, va, access) {
                    Ok(pa) => pa,
                    Err(_) => unreachable!(),
                })
            }
            Work::Load(size) => repeat(times, args, |va| summed(load(c, n, m, va, size))),
            Work::Store(size) => {
                let v = black_box(STORED);
                repeat(times, args, |va| {
                    summed(store(c, n, m, va, size, v).map(|()| DONE))
                })
            }
            Work::Fetch => repeat(times, args, |va| summed(fetch(c, n, m, va).map(u64::from))),
            Work::System(fields) => {
                let [op1, crn, crm, op2] = fields.map(u64::from);
                repeat(times, args, |rt| {
                    let operation = SystemOperation::new(op1, crn, crm, op2, rt);
                    summed(system(c, n, m, operation).map(|()| DONE))
                })
            }
            _ => unreachable!("no case of four cores"),
        }
    }
}

impl Quartet {
    /// Four cores alike.
    pub fn new(rust: &RustCore) -> Quartet {
        let words = boxed(&rust.state());
        let mut core = Held::new();
        core.restore(&words);
        let (mut cluster, mut plain) = (HeldCluster::new(), Box::<Cluster>::default());
        for n in 0..CORES as u64 {
            cluster.put(n, &core);
            let core = a72::Core::from_words(words.clone());
            plain.put(n, &core).expect("a core");
        }
        let cpus: Vec<Cpu> = (0..CORES).map(|_| rust.cpu.clone()).collect();
        Quartet {
            cpus: cpus.try_into().unwrap_or_else(|_| unreachable!()),
            levels: [*rust.levels(); CORES],
            cluster,
            plain,
        }
    }

    pub fn run_rust(&mut self, work: Work, args: [u64; 2], ram: &mut Ram, times: usize) -> u64 {
        let called = CALLED as usize;
        let counted = |cpu: &Cpu| (cpu.tlb.hits, cpu.tlb.walks);
        let (level, before) = (self.cpus[called].el, counted(&self.cpus[called]));
        let sum = run_rust(work, args, &mut self.cpus, ram, times);
        let after = counted(&self.cpus[called]);
        let own = &mut self.levels[called][level as usize];
        own.hits = own.hits.wrapping_add(after.0.wrapping_sub(before.0));
        own.walks = own.walks.wrapping_add(after.1.wrapping_sub(before.1));
        sum
    }

    #[cfg(feature = "rattle")]
    pub fn run_ours(&mut self, work: Work, args: [u64; 2], ram: &mut Ram, times: usize) -> u64 {
        use crate::ffi::four::LentFour;
        let base = black_box(ram.base);
        let lent = LentFour::new(&mut self.cluster, black_box(CALLED), base, &mut ram.bytes);
        super::ours::calls(work, args, lent, times)
    }

    pub fn run_plain(&mut self, work: Work, args: [u64; 2], ram: &mut Ram, times: usize) -> u64 {
        plain::run(work, args, &mut self.plain, ram, times)
    }

    fn rust(&self, i: usize) -> State {
        RustCore::of(self.cpus[i].clone(), self.levels[i]).state()
    }

    /// Whether all four hold the same.
    pub fn agree(&self, plain: bool) -> bool {
        (0..CORES).all(|i| {
            let words = if plain {
                self.plain.core(i as u64).expect("a core").words()
            } else {
                let mut core = Held::new();
                self.cluster.get(i as u64, &mut core);
                saved(&core)
            };
            state_of(&words[..]) == self.rust(i)
        })
    }
}
