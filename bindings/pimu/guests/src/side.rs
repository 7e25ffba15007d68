//! One core of pimu, as published or on the proved core, in words that both have.
use crate::bus::Bus;
use std::collections::BTreeMap;

/// How a step ended.
#[derive(Clone, Copy, Debug, PartialEq, Eq)]
pub enum Ended {
    Retired,
    Waits,
    Took(Raised),
    Interrupt,
    Unimplemented(u32),
    Unsupported,
    /// A vector instruction, which pimu's stub does not have.
    Vector,
}

/// An exception: its number in pimu's enum, address or immediate, write, status.
pub type Raised = (u8, u64, bool, u8);

/// What a TLBI drops.
#[derive(Clone, Copy, Debug, PartialEq, Eq)]
pub enum Inval {
    All,
    Page(u64),
    Asid(u16),
}

/// The registers and all else that a core shows but its TLB.
#[derive(Clone, Debug, PartialEq, Eq)]
pub struct Registers {
    pub x: [u64; 31],
    pub sp: [u64; 4],
    pub pc: u64,
    pub pstate: u64,
    pub banks: [[u64; 4]; 9],
    pub single: [u64; 8],
    pub others: [u64; 8],
    pub v: [u128; 32],
    pub exclusive: Option<(u64, u32, u64)>,
    pub event: (bool, bool),
    pub abort_pa: u64,
}

/// The TLB's counters, as pimu's other files read them.
#[derive(Clone, Copy, Debug, PartialEq, Eq)]
pub struct Counts {
    pub hits: u64,
    pub walks: u64,
    pub flushes: u64,
    pub reshaped: u64,
    pub drops: u64,
    pub epoch: u64,
    pub broadcast: Option<Inval>,
}

/// An entry of the TLB that may answer.
#[derive(Clone, Copy, Debug, PartialEq, Eq)]
pub struct Live {
    pub tag: u64,
    pub perms: u8,
    pub level: u8,
    pub global: bool,
    pub asid: u16,
    pub pa: u64,
}

/// What the TLB holds.
pub trait Cache {
    /// Whether it can be looked at: what waits for the next access has been done.
    fn settled(&self) -> bool;
    fn live(&self, slot: usize) -> Option<Live>;
    /// Key and page of a data hint.
    fn hint(&self, slot: usize) -> Option<(u64, u64)>;
    fn asid(&self) -> u16;
}

pub trait Side: Cache + Clone {
    fn with_id(id: u32) -> Self;
    /// `step_system`.
    fn step(&mut self, bus: &mut Bus) -> Ended;
    /// An instruction that was not fetched, as a run loop makes it that keeps what it fetched before.
    fn inject(&mut self, word: u32, bus: &mut Bus) -> Ended;
    fn registers(&self) -> Registers;
    fn plain(&self) -> &BTreeMap<u32, u64>;
    fn counts(&self) -> Counts;
    fn fetch_hint(&self) -> Option<(u64, u32, u64)>;
    fn pc(&self) -> u64;
    /// Whether stage 1 is off at the level.
    fn flat(&self) -> bool;
    fn set_pc(&mut self, pc: u64);
    fn take_broadcast(&mut self) -> Option<Inval>;
    fn invalidate(&mut self, what: Inval);
    fn flush(&mut self);
    fn snoop(&mut self, lo: u64, hi: u64);
    fn take_sev(&mut self) -> bool;
    fn set_event(&mut self);
    fn set_irq(&mut self, on: bool);
    /// The machine moves a table of EL1&0, past the instruction that does so. What may be an ASID stays.
    fn move_tables(&mut self, upper: bool, base: u64);
    fn record(&mut self, path: &str);
    fn end_recording(&mut self);
    fn poked(&mut self, pa: u64, value: u64);
}

macro_rules! ended {
    ($pimu:ident, $step:expr) => {{
        use $pimu::aarch64::{Exception, Step};
        match $step {
            Step::Retired => Ended::Retired,
            Step::Wfi | Step::Wfe => Ended::Waits,
            Step::Interrupt { .. } => Ended::Interrupt,
            Step::Unimplemented(insn) => Ended::Unimplemented(insn),
            Step::Unsupported(_) => Ended::Unsupported,
            Step::Exception(e) | Step::Took(e) => Ended::Took(match e {
                Exception::Undefined => (0, 0, false, 0),
                Exception::Svc(i) => (1, i.into(), false, 0),
                Exception::Hvc(i) => (2, i.into(), false, 0),
                Exception::Smc(i) => (3, i.into(), false, 0),
                Exception::Brk(i) => (4, i.into(), false, 0),
                Exception::DataAbort { addr, write, fsc } => (5, addr, write, fsc),
                Exception::InsnAbort { addr, fsc } => (6, addr, false, fsc),
                Exception::PcAlignment => (7, 0, false, 0),
            }),
        }
    }};
}

macro_rules! side {
    ($pimu:ident) => {
        impl Side for $pimu::aarch64::Cpu {
            fn with_id(id: u32) -> Self {
                Self::with_id(id)
            }

            fn step(&mut self, bus: &mut Bus) -> Ended {
                ended!($pimu, self.step_system(bus))
            }

            fn inject(&mut self, word: u32, bus: &mut Bus) -> Ended {
                use $pimu::aarch64::Step;
                let step = self.step_fetched(word, bus);
                if let Step::Exception(e) = step {
                    self.take_sync(e);
                }
                ended!($pimu, step)
            }

            fn registers(&self) -> Registers {
                let s = &self.sys;
                Registers {
                    x: self.x,
                    sp: self.sp_el,
                    pc: self.pc,
                    pstate: self.pstate(),
                    banks: [s.sctlr, s.tcr, s.ttbr0, s.mair, s.vbar, s.elr, s.spsr, s.esr, s.far],
                    single: [
                        s.ttbr1_el1,
                        s.scr_el3,
                        s.hcr_el2,
                        s.vpidr_el2,
                        s.vmpidr_el2,
                        s.mpidr,
                        s.cntfrq,
                        s.csselr,
                    ],
                    others: [
                        self.tpidr_el0,
                        self.tpidrro_el0,
                        self.fpcr.into(),
                        self.fpsr.into(),
                        self.effects,
                        self.shared_effects,
                        self.irq_line.into(),
                        self.fiq_line.into(),
                    ],
                    v: self.v,
                    exclusive: self.exclusive_mark(),
                    event: (self.event, self.sev),
                    abort_pa: self.abort_pa,
                }
            }

            fn plain(&self) -> &BTreeMap<u32, u64> {
                &self.sys.plain
            }

            fn counts(&self) -> Counts {
                let t = &self.tlb;
                Counts {
                    hits: t.hits,
                    walks: t.walks,
                    flushes: t.flushes,
                    reshaped: t.reshaped,
                    drops: t.drops,
                    epoch: t.epoch,
                    broadcast: t.broadcast.map(|what| match what {
                        $pimu::aarch64::mmu::Inval::All => Inval::All,
                        $pimu::aarch64::mmu::Inval::Page(page) => Inval::Page(page),
                        $pimu::aarch64::mmu::Inval::Asid(asid) => Inval::Asid(asid),
                    }),
                }
            }

            fn fetch_hint(&self) -> Option<(u64, u32, u64)> {
                self.tlb.fetch_hint()
            }

            fn pc(&self) -> u64 {
                self.pc
            }

            fn flat(&self) -> bool {
                let s = &self.sys;
                let by_el2 = self.el < 2 && s.scr_el3 & 1 != 0 && s.hcr_el2 & (1 << 12 | 1 << 27) != 0;
                by_el2 || s.sctlr[self.el.max(1) as usize] & 1 == 0
            }

            fn set_pc(&mut self, pc: u64) {
                self.pc = pc;
            }

            fn take_broadcast(&mut self) -> Option<Inval> {
                let what = self.counts().broadcast;
                self.tlb.broadcast = None;
                what
            }

            fn invalidate(&mut self, what: Inval) {
                self.tlb.invalidate(match what {
                    Inval::All => $pimu::aarch64::mmu::Inval::All,
                    Inval::Page(page) => $pimu::aarch64::mmu::Inval::Page(page),
                    Inval::Asid(asid) => $pimu::aarch64::mmu::Inval::Asid(asid),
                });
            }

            fn flush(&mut self) {
                self.tlb.flush();
            }

            fn snoop(&mut self, lo: u64, hi: u64) {
                self.snoop_write(lo, hi);
            }

            fn take_sev(&mut self) -> bool {
                std::mem::take(&mut self.sev)
            }

            fn set_event(&mut self) {
                self.event = true;
            }

            fn set_irq(&mut self, on: bool) {
                self.irq_line = on;
            }

            fn move_tables(&mut self, upper: bool, base: u64) {
                let register = match upper {
                    true => &mut self.sys.ttbr1_el1,
                    false => &mut self.sys.ttbr0[1],
                };
                *register = *register & 0xFFFF << 48 | base;
            }

            side!(record $pimu);
        }
    };
    (record pimu) => {
        fn record(&mut self, _: &str) {}

        fn end_recording(&mut self) {}

        fn poked(&mut self, _: u64, _: u64) {}
    };
    (record $ours:ident) => {
        fn record(&mut self, path: &str) {
            self.tlb.record(path).expect("the trace can be written");
        }

        fn end_recording(&mut self) {
            self.tlb.end_recording().expect("the trace can be written");
        }

        fn poked(&mut self, pa: u64, value: u64) {
            self.tlb.poked(pa, value);
        }
    };
    (cache $ours:ident) => {
        impl Cache for $ours::aarch64::Cpu {
            fn settled(&self) -> bool {
                self.tlb.core().is_some()
            }

            fn live(&self, slot: usize) -> Option<Live> {
                let core = self.tlb.core()?;
                let e = core.entry(slot);
                core.is_live(&e).then_some(Live {
                    tag: e.tag,
                    perms: e.rights.0,
                    level: e.level,
                    global: e.global,
                    asid: e.asid,
                    pa: e.pa,
                })
            }

            fn hint(&self, slot: usize) -> Option<(u64, u64)> {
                let hint = self.tlb.core()?.hint(slot)?;
                Some((hint.key, hint.pa))
            }

            fn asid(&self) -> u16 {
                self.tlb.core().map_or(0, |core| core.asid())
            }
        }
    };
}

side!(pimu);
side!(proved);
side!(mistaken);
side!(cache proved);
side!(cache mistaken);

impl Cache for pimu::aarch64::Cpu {
    fn settled(&self) -> bool {
        true
    }

    fn live(&self, slot: usize) -> Option<Live> {
        use pimu::aarch64::access::mmu::{generation, record};
        let e = record(&self.tlb, slot);
        (e.tag != 0 && e.generation == generation(&self.tlb)).then_some(Live {
            tag: e.tag,
            perms: e.perms,
            level: e.level,
            global: e.global,
            asid: e.asid,
            pa: e.pa,
        })
    }

    fn hint(&self, slot: usize) -> Option<(u64, u64)> {
        let (key, pa) = pimu::aarch64::access::mmu::data_hint(&self.tlb, slot);
        (key != u64::MAX).then_some((key, pa))
    }

    fn asid(&self) -> u16 {
        pimu::aarch64::access::mmu::cache_asid(&self.tlb)
    }
}
