//! Faithfulness, tested in a form stronger than docs/SCOPE.md has it. Beside the core under test goes the core without
//! a cache. For each translation (each half of a split access and each store of DC ZVA too): unless some earlier walk
//! of that page that the core really made, that no later invalidation covers, and that is global or of the ASID in
//! force now, differs from the walk now, the two answers are equal. (The scope lets every walk the page would have
//! had excuse a difference, so it asks less.) A census is a step that does nothing, and its counts are those of the
//! core without a cache; so is a list of windows, with what it comes to, and so is a flipped bit. A translation that walks reads the descriptors of the walk now, any other none; an operation
//! reads what its translations do, and AT what a walk does, whatever the cache holds. After each step [`invariant`] is
//! checked too.
mod cores;
mod invariant;
mod past;

use crate::model::{DocCore, Inval};
use crate::op::{Ans, Line, Op};
use crate::{feed, refusal, rust, Core, Ram, State};
pub use cores::hold_cores;
use past::{Past, Walk};

/// What was seen.
#[derive(Default)]
pub struct Seen {
    pub translations: u64,
    pub flat: u64,
    pub walked: u64,
    pub cached: u64,
    pub stale_excused: u64,
    /// Of these the line, the list's first being 1, and the address that was translated.
    pub stale: Vec<(usize, u64)>,
    pub equal_though_excused: u64,
    pub censuses: u64,
    pub lists: u64,
    pub flips: u64,
    /// Invalidations that a core carried out for another.
    pub heard: u64,
}

/// One list of operations under test.
struct Trial<'a> {
    /// Its registers are those of the core without a cache.
    bare: DocCore,
    past: Past,
    /// The line that is carried out.
    line: usize,
    /// The descriptors that its translations read.
    reads: u64,
    seen: &'a mut Seen,
}

/// Which translation is made: by kind, or through the fetch hint.
#[derive(Clone, Copy)]
enum Way {
    Kind(u8),
    FetchHint,
}

impl Way {
    fn kind(self) -> u8 {
        match self {
            Way::Kind(k) => k,
            Way::FetchHint => 4,
        }
    }
}

/// The answer of one translation of `core`, which it changes.
fn translate(core: &mut dyn Core, ram: &mut Ram, way: Way, va: u64) -> Result<Result<u64, u8>, String> {
    let (op, before) = match way {
        Way::Kind(k) => (Op::Translate(k, va), None),
        Way::FetchHint => (Op::FetchPa(va), Some(core.copy())),
    };
    let answer = match (core.step(&op, ram), before) {
        // `fetch_pa` says only that it would fault; `translate` says how.
        (Ans::None, Some(mut c)) => c.step(&Op::Translate(4, va), ram),
        (a, _) => a,
    };
    match answer {
        Ans::Val(pa) => Ok(Ok(pa)),
        Ans::Fault(_, s) => Ok(Err(s)),
        a => Err(format!("{op} gives {a}")),
    }
}

impl Trial<'_> {
    /// One translation that `core`, a copy of the core under test, is about to make on `ram`.
    fn judge(
        &mut self,
        core: &mut dyn Core,
        ram: &mut Ram,
        way: Way,
        va: u64,
    ) -> Result<Result<u64, u8>, String> {
        let walks = core.state().walks();
        let got = translate(core, ram, way, va)?;
        let r = &self.bare.regs;
        let kind = way.kind();
        let want = r.translation_without_cache(ram, kind, va);
        let regime = r.regime();
        self.seen.translations += 1;
        let apart = || format!("kind {kind} {va:x} gives {got:x?}, without a cache {want:x?}");
        let read = core.reads();
        self.reads += read;
        let told = |due: u64| match read {
            n if n == due => Ok(()),
            n => Err(format!("kind {kind} {va:x} reads {n} descriptors, not {due}")),
        };
        if !r.on(regime) {
            self.seen.flat += 1;
            told(0)?;
            return if got == want { Ok(got) } else { Err(apart()) };
        }
        let page = r.untag(regime, va) >> 12;
        let mut fetched = 0;
        let now = r.walk_counting(ram, regime, page << 12 | va & 0xFFF, &mut fetched);
        let excused = self.past.excuses(regime, page, r.asid(), &now);
        let walked = core.state().walks() != walks;
        told(if walked { fetched } else { 0 })?;
        let count = if walked {
            &mut self.seen.walked
        } else {
            &mut self.seen.cached
        };
        *count += 1;
        match (got == want, excused) {
            (false, false) => return Err(format!("{}, and no walk excuses it", apart())),
            (false, true) => {
                self.seen.stale_excused += 1;
                self.seen.stale.push((self.line, va));
            }
            (true, true) => self.seen.equal_though_excused += 1,
            (true, false) => {}
        }
        if let (true, Ok(leaf)) = (walked, now) {
            self.past.add(regime, page, Walk::new(&leaf, r.asid()));
        }
        Ok(got)
    }

    /// The translations that an access of `size` bytes by `core` begins with.
    fn access(&mut self, core: &dyn Core, ram: &mut Ram, kind: u8, va: u64, size: u32) -> Result<(), String> {
        let mut c = core.copy();
        let first = self.judge(c.as_mut(), ram, Way::Kind(kind), va)?;
        let left = 0x1000 - (va & 0xFFF);
        let split = u64::from(size) > left && self.bare.regs.on(self.bare.regs.regime());
        if first.is_ok() && split {
            let _ = self.judge(c.as_mut(), ram, Way::Kind(kind), va.wrapping_add(left))?;
        }
        Ok(())
    }

    /// DC ZVA is eight steps, each with the RAM that the one before left.
    fn zeroing(&mut self, core: &dyn Core, ram: &Ram, rt: u32) -> Result<(), String> {
        let base = self.bare.regs.general(rt) & !63;
        let (mut c, mut ram) = (core.copy(), ram.clone());
        for i in 0..8 {
            self.access(c.as_ref(), &mut ram, 2, base + 8 * i, 8)?;
            if c.step(&Op::Store(base + 8 * i, 8, 0), &mut ram) != Ans::Ok {
                break;
            }
        }
        Ok(())
    }

    /// Every translation that the operation is about to make. Leaves `core` and `ram` as they are.
    fn foresee(&mut self, op: &Op, core: &dyn Core, ram: &mut Ram) -> Result<(), String> {
        match *op {
            Op::Translate(k, va) => self.access(core, ram, k, va, 0),
            Op::DataPa(va) => self.access(core, ram, 1, va, 0),
            Op::Load(va, n) => self.access(core, ram, 1, va, n),
            Op::Store(va, n, _) => self.access(core, ram, 2, va, n),
            Op::Fetch(va) | Op::FetchPa(va) => self
                .judge(core.copy().as_mut(), ram, Way::FetchHint, va)
                .map(|_| ()),
            Op::Sys(3, 7, 4, 1, rt) => self.zeroing(core, ram, rt),
            _ => Ok(()),
        }
    }

    /// What the operation invalidates, read from the call alone.
    fn invalidation(&self, op: &Op) -> Option<Inval> {
        let el = self.bare.regs.level;
        match *op {
            Op::Sys(op1 @ (0 | 4 | 6), 8, crm, op2, rt) if el > 0 && op1 / 2 <= el => {
                Some(self.bare.tlbi(op1, crm, op2, rt))
            }
            Op::Reg(k, v) => {
                let mut after = self.bare.regs.clone();
                let flushes = after.write_reg(k, v) && after.shaping() != self.bare.regs.shaping();
                flushes.then_some(Inval::All)
            }
            _ => None,
        }
    }

    /// What looks alone, on both cores: a census, a list of windows, a flipped bit. RAM is one, and stays.
    fn look(&mut self, op: &Op, core: &mut dyn Core, ram: &mut Ram) -> Result<(), String> {
        let before = (core.state(), ram.clone());
        let (want, got) = (self.bare.step(op, ram), core.step(op, ram));
        ram.taken(op);
        match op {
            Op::Windows => self.seen.lists += 1,
            Op::Flip(..) => self.seen.flips += 1,
            _ => self.seen.censuses += 1,
        }
        if got != want {
            return Err(format!("gives {got}, without a cache {want}"));
        }
        if before != (core.state(), ram.clone()) {
            return Err("it moved something".into());
        }
        Ok(())
    }

    /// The line on both cores. RAM moves with the core under test.
    fn feed(&mut self, line: &Line, core: &mut dyn Core, ram: &mut Ram) -> Result<(), String> {
        match line {
            Line::Op(op) if op.looks() => return self.look(op, core, ram),
            Line::Op(op) if op.may_write_ram() => {
                self.bare.step(op, &mut ram.clone());
            }
            Line::Op(op) => {
                self.bare.step(op, ram);
            }
            other => {
                feed(other, &mut self.bare, &mut Ram::default());
            }
        }
        feed(line, core, ram);
        Ok(())
    }

    /// What the operation read is what its translations did; of AT what the core without a cache did.
    fn reads_in_all(&self, line: &Line, core: &dyn Core) -> Result<(), String> {
        let due = match line {
            Line::Op(Op::Sys(_, 7, 8, ..)) => self.bare.reads(),
            Line::Op(_) => self.reads,
            _ => return Ok(()),
        };
        match core.reads() {
            n if n == due => Ok(()),
            n => Err(format!("reads {n} descriptors, not {due}")),
        }
    }

    fn step(&mut self, line: &Line, core: &mut dyn Core, ram: &mut Ram) -> Result<(), String> {
        self.reads = 0;
        if *line == Line::Fresh {
            self.past.clear();
        }
        if let Line::Op(op) = line {
            if refusal(op, self.bare.regs.level, ram, rust::kept).is_none() {
                self.foresee(op, core, ram)?;
                if let Some(what) = self.invalidation(op) {
                    self.past.cover(what);
                }
            }
        }
        self.feed(line, core, ram)?;
        self.reads_in_all(line, core)?;
        stands(&core.state(), &self.bare, &self.past)
    }
}

/// The registers are those of the core without a cache, and something stands behind all that is cached.
fn stands(state: &State, bare: &DocCore, past: &Past) -> Result<(), String> {
    if state.regs != bare.state().regs {
        return Err("the registers are not those of the core without a cache".into());
    }
    invariant::holds(state, &bare.regs, past).map_err(|e| format!("nothing stands behind {e}"))
}

/// Test one list; the error says where and why faithfulness or the invariant broke.
pub fn hold(lines: &[Line], core: &mut dyn Core, seen: &mut Seen) -> Result<(), String> {
    core.reset();
    let mut ram = Ram::default();
    let mut trial = Trial {
        bare: DocCore::new(),
        past: Past::default(),
        line: 0,
        reads: 0,
        seen,
    };
    for (i, line) in lines.iter().enumerate() {
        trial.line = i + 1;
        trial
            .step(line, core, &mut ram)
            .map_err(|e| format!("line {}: {line}: {e}", i + 1))?;
    }
    Ok(())
}
