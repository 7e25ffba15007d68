//! Two pimus on one guest: every step is made by both, and all that they show is compared.
use crate::apart::one;
use crate::bus::{Bus, Event};
use crate::side::{Cache, Counts, Ended, Side};
use std::collections::BTreeMap;

pub type Published = pimu::aarch64::Cpu;

/// Entries and hints are compared after each step that moved a counter, and at least once in so many steps.
const LOOK: u64 = 64;
const ENTRIES: usize = 1024;
pub const HINTS: usize = 512;

/// Cores on one bus, and the same cores on the proved translation on theirs.
pub struct Pair<B> {
    pub a: Vec<Published>,
    pub b: Vec<B>,
    pub bus_a: Bus,
    pub bus_b: Bus,
    pub steps: u64,
    /// Whether broadcasts wait for a few steps, as a run loop may have it.
    pub lazy: bool,
    /// How often what happened.
    pub seen: BTreeMap<String, u64>,
    counts: Vec<Counts>,
}

fn same<T: PartialEq + std::fmt::Debug>(what: &str, a: &T, b: &T) -> Result<(), String> {
    if a == b {
        return Ok(());
    }
    Err(format!("{what}\n  published {a:x?}\n  proved    {b:x?}"))
}

impl<B: Side> Pair<B> {
    pub fn new(bus: Bus, cores: usize) -> Pair<B> {
        let a: Vec<Published> = (0..cores).map(|id| Side::with_id(id as u32)).collect();
        Pair {
            counts: a.iter().map(Side::counts).collect(),
            a,
            b: (0..cores).map(|id| B::with_id(id as u32)).collect(),
            bus_b: bus.clone(),
            bus_a: bus,
            steps: 0,
            lazy: false,
            seen: BTreeMap::new(),
        }
    }

    /// The same of every core on both sides.
    pub fn each(&mut self, n: usize, mut of_a: impl FnMut(&mut Published), mut of_b: impl FnMut(&mut B)) {
        of_a(&mut self.a[n]);
        of_b(&mut self.b[n]);
    }

    pub fn start(&mut self, n: usize, pc: u64) {
        self.each(n, |a| a.set_pc(pc), |b| b.set_pc(pc));
    }

    /// One instruction of a core on both sides.
    pub fn step(&mut self, n: usize) -> Result<Ended, String> {
        self.both(n, None)
    }

    /// The same of an instruction that was not fetched.
    pub fn inject(&mut self, n: usize, word: u32) -> Result<Ended, String> {
        self.both(n, Some(word))
    }

    fn both(&mut self, n: usize, word: Option<u32>) -> Result<Ended, String> {
        self.steps += 1;
        let pc = self.a[n].pc();
        let ended = self.made(n, word, pc);
        ended.map_err(|e| format!("step {} of core {n} at {pc:x}: {e}", self.steps))
    }

    fn made(&mut self, n: usize, word: Option<u32>, pc: u64) -> Result<Ended, String> {
        let before = self.before(n);
        let other =
            one(&mut self.b[n], word, &mut self.bus_b).map_err(|e| format!("the proved core: {e}"))?;
        let ended = match self.without_device(n, word, &other) {
            Some(ended) => ended,
            None => one(&mut self.a[n], word, &mut self.bus_a).map_err(|e| format!("published: {e}"))?,
        };
        let ended = self.flat_access(n, before, ended)?;
        self.flat_at(n, word, pc);
        self.compare(n, &ended, &other)?;
        self.tally(&ended);
        self.spread(n);
        Ok(ended)
    }

    fn compare(&mut self, n: usize, ended: &Ended, other: &Ended) -> Result<(), String> {
        let (a, b) = (&self.a[n], &self.b[n]);
        same("how it ended", ended, other)?;
        let (ra, rb) = (a.registers(), b.registers());
        if ra != rb {
            same("X", &ra.x, &rb.x)?;
            same("SP", &ra.sp, &rb.sp)?;
            same("PC and PSTATE", &(ra.pc, ra.pstate), &(rb.pc, rb.pstate))?;
            same("system registers by level", &ra.banks, &rb.banks)?;
            same("registers", &ra, &rb)?;
        }
        same("registers kept plain", a.plain(), b.plain())?;
        let counts = a.counts();
        same("counters", &counts, &b.counts())?;
        same("what reached the bus", &self.bus_a.log, &self.bus_b.log)?;
        if b.settled() {
            same("the fetch hint", &a.fetch_hint(), &b.fetch_hint())?;
            if counts != self.counts[n] || self.steps.is_multiple_of(LOOK) {
                same_cache(a, b)?;
                self.counts[n] = counts;
            }
        }
        Ok(())
    }

    fn tally(&mut self, ended: &Ended) {
        let what = match ended {
            Ended::Retired => return,
            Ended::Took((5, _, write, fsc)) => {
                format!(
                    "data abort {fsc:02x} on a {}",
                    if *write { "write" } else { "read" }
                )
            }
            Ended::Took((6, _, _, fsc)) => format!("instruction abort {fsc:02x}"),
            Ended::Took((n, ..)) => {
                ["undefined", "svc", "hvc", "smc", "brk", "", "", "pc alignment"][usize::from(*n)].into()
            }
            Ended::Waits => "wfi, wfe".into(),
            Ended::Interrupt => "interrupt".into(),
            Ended::Unimplemented(_) => "unimplemented".into(),
            Ended::Unsupported => "unsupported".into(),
            Ended::Vector => "vector".into(),
        };
        *self.seen.entry(what).or_default() += 1;
    }

    /// What a step of a core is to the others: broadcasts, writes, SEV.
    fn spread(&mut self, n: usize) {
        let written: Vec<Event> = self.bus_a.log.drain(..).filter(|e| e.what == 'w').collect();
        self.bus_b.log.clear();
        let (what_a, what_b) = match self.lazy && !self.steps.is_multiple_of(5) {
            true => (None, None),
            false => (self.a[n].take_broadcast(), self.b[n].take_broadcast()),
        };
        let (sev_a, sev_b) = (self.a[n].take_sev(), self.b[n].take_sev());
        for other in (0..self.a.len()).filter(|other| *other != n) {
            let (a, b) = (&mut self.a[other], &mut self.b[other]);
            for e in &written {
                a.snoop(e.address, e.address + u64::from(e.size));
                b.snoop(e.address, e.address + u64::from(e.size));
                for at in [e.address & !7, (e.address + u64::from(e.size) - 1) & !7] {
                    b.poked(at, self.bus_b.peek(at));
                }
            }
            if let Some(what) = what_a {
                a.invalidate(what);
            }
            if let Some(what) = what_b {
                b.invalidate(what);
            }
            if sev_a {
                a.set_event();
            }
            if sev_b {
                b.set_event();
            }
        }
    }

    /// At the end: RAM, and every core's entries and hints.
    pub fn finish(&mut self) -> Result<(), String> {
        if self.bus_a.ram != self.bus_b.ram {
            let at = self
                .bus_a
                .ram
                .iter()
                .zip(&self.bus_b.ram)
                .position(|(a, b)| a != b);
            return Err(format!(
                "RAM differs at {:x}",
                self.bus_a.base + at.unwrap_or(0) as u64
            ));
        }
        for (a, b) in self.a.iter().zip(&self.b).filter(|(_, b)| b.settled()) {
            same_cache(a, b)?;
        }
        Ok(())
    }
}

/// Entries that may answer, data hints, the ASID.
fn same_cache(a: &impl Cache, b: &impl Cache) -> Result<(), String> {
    same("the cache's ASID", &a.asid(), &b.asid())?;
    for slot in 0..HINTS {
        let (x, y) = (a.hint(slot), b.hint(slot));
        if x != y {
            same(&format!("hint {slot:x}"), &x, &y)?;
        }
    }
    for slot in 0..ENTRIES {
        let (x, y) = (a.live(slot), b.live(slot));
        if x != y {
            same(&format!("entry {slot:x}"), &x, &y)?;
        }
    }
    Ok(())
}
