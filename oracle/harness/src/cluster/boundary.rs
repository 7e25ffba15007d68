//! The cluster behind the C boundary. As long as a trace is of one core, that is a core by itself; then it is put in as core
//! 0. What a core of the cluster holds is what `a72_cluster_get` copies out, and what it shall hold is put in again.
use super::{place, Cluster, CORES, NO_CORE};
use crate::ffi::four::{step, OneOf, CHECK_CORE};
use crate::ffi::looks::{census, counted, flip, looked, windows};
use crate::ffi::{
    boxed, poke, saved, state_of, CCore, Held, HeldCluster, Words, CORE_SIZE, HANDLE_SIZE, RETIRED,
};
use crate::number::DONE;
use crate::op::{Ans, Op};
use crate::rust::RustCore;
use crate::wild::Part;
use crate::{place as words, Core, Ram, State};

/// One operation of the list that does not look, on the core of this number: its answer, and the descriptors that it read.
type Step = fn(&mut HeldCluster, u64, &Op, &mut Ram) -> (Ans, u64);

#[derive(Clone)]
pub struct CFour {
    /// A trace's one core; none where there are four.
    alone: Option<CCore>,
    four: HeldCluster,
    number: u64,
    /// Of each core the level that was put, where it is above 255.
    level: [Option<u64>; CORES],
    reads: u64,
    by_each: bool,
    /// A core that is copied out, and each as it was when it held what the Rust's did.
    out: Held,
    seen: [Held; CORES],
}

/// A core's bytes.
fn bytes(core: &Held) -> &[u8] {
    // Sound: the memory that a core has, past its address.
    unsafe {
        std::slice::from_raw_parts(
            core.handle().cast::<u8>().add(HANDLE_SIZE),
            CORE_SIZE - HANDLE_SIZE,
        )
    }
}

/// By `a72_cluster_step`.
fn by_step(four: &mut HeldCluster, n: u64, op: &Op, ram: &mut Ram) -> (Ans, u64) {
    step(&OneOf(four, n), op, ram)
}

/// By the function for each operation.
#[cfg(feature = "rattle")]
fn by_each(four: &mut HeldCluster, n: u64, op: &Op, ram: &mut Ram) -> (Ans, u64) {
    use crate::ffi::{each::call, four::LentFour};
    let (at, len) = (ram.bytes.lent(op.may_write_ram()), ram.bytes.len());
    // Sound: the window's bytes, which `ram` lends. Where they are sealed nobody here writes them.
    let bytes = unsafe { std::slice::from_raw_parts_mut(at, len) };
    call(&mut LentFour::new(four, n, ram.base, bytes), op)
}

#[cfg(not(feature = "rattle"))]
fn by_each(_: &mut HeldCluster, _: u64, _: &Op, _: &mut Ram) -> (Ans, u64) {
    unreachable!("the functions want the feature `rattle`")
}

/// A core by itself.
#[cfg(feature = "rattle")]
fn one_core(by_each: bool) -> CCore {
    if by_each {
        CCore::by_each()
    } else {
        CCore::new()
    }
}

#[cfg(not(feature = "rattle"))]
fn one_core(_: bool) -> CCore {
    CCore::new()
}

impl CFour {
    fn of(alone: CCore, by_each: bool) -> CFour {
        CFour {
            alone: Some(alone),
            four: HeldCluster::new(),
            number: 0,
            level: [None; CORES],
            reads: 0,
            by_each,
            out: Held::new(),
            seen: [(); CORES].map(|()| Held::new()),
        }
    }

    /// By `a72_cluster_step`.
    pub fn new() -> CFour {
        CFour::of(CCore::new(), false)
    }

    /// By the function for each operation.
    #[cfg(feature = "rattle")]
    pub fn by_each() -> CFour {
        CFour::of(CCore::by_each(), true)
    }

    /// Core `i`, copied out.
    fn get(&self, i: usize) -> Held {
        let mut out = Held::new();
        assert_eq!(self.four.get(i as u64, &mut out), DONE);
        out
    }

    fn words_of(&self, i: usize, core: &Held) -> Words {
        let mut all = saved(core);
        if let (Some(level), 255) = (self.level[i], all[words::LEVEL]) {
            all[words::LEVEL] = level;
        }
        all
    }

    fn words(&self, i: usize) -> Words {
        match &self.alone {
            Some(one) if i == 0 => one.words(),
            _ => self.words_of(i, &self.get(i)),
        }
    }

    /// Core `i` holds what these words hold.
    fn hold(&mut self, i: usize, all: &Words) {
        let level = all[words::LEVEL];
        self.level[i] = (level > 255).then_some(level);
        let mut core = Held::new();
        core.restore(all);
        assert_eq!(self.four.put(i as u64, &core), DONE);
    }

    /// A core that there is not is neither given nor taken.
    fn there_is_none(&mut self) -> bool {
        let mut out = Held::new();
        let before = saved(&out);
        let numbers = [
            self.four.get(self.number, &mut out),
            self.four.put(self.number, &out),
        ];
        numbers == [CHECK_CORE; 2] && saved(&out) == before
    }

    /// What only looks. `a72_cluster_step` says done, or refuses alike; it is asked of a copy, since it hands on what is
    /// pending where a list of windows would not.
    fn look(&mut self, op: &Op, ram: &mut Ram) -> (Ans, u64) {
        let n = self.number;
        let (said, reads) = match self.by_each {
            false => step(&OneOf(&self.four.clone(), n), op, ram),
            true => (Ans::Ok, 0),
        };
        let one = OneOf(&self.four, n);
        let answer = match *op {
            Op::Census(first, pages) => census(&one, first, pages, ram),
            Op::Windows => windows(&one, ram),
            Op::Flip(kind, user, va) => flip(&one, kind, user, va, ram),
            _ => unreachable!("{op} does not only look"),
        };
        match (self.by_each, op) {
            (true, _) => (answer, 0),
            (false, Op::Census(..)) => (counted(said, answer), reads),
            (false, _) => (looked(said, answer), reads),
        }
    }

    fn step_of_four(&mut self, op: &Op, ram: &mut Ram) -> (Ans, u64) {
        let i = place(self.number);
        if i.is_none() && !self.there_is_none() {
            return (Ans::Panic, 0);
        }
        match (i, op.is_poke()) {
            (Some(i), true) => {
                let mut all = self.words(i);
                poke::poke(&mut all, op);
                self.hold(i, &all);
                (Ans::Ok, 0)
            }
            // A poke is none of the library's.
            (None, true) => (NO_CORE, 0),
            _ if op.looks() => self.look(op, ram),
            _ => {
                let step: Step = if self.by_each { by_each } else { by_step };
                step(&mut self.four, self.number, op, ram)
            }
        }
    }
}

impl Default for CFour {
    fn default() -> CFour {
        CFour::new()
    }
}

impl Core for CFour {
    fn reset(&mut self) {
        if let Some(one) = &mut self.alone {
            return one.reset();
        }
        self.four = HeldCluster::new();
        (self.level, self.reads) = ([None; CORES], 0);
    }

    fn restart(&mut self) {
        let by_each = self.by_each;
        *self = CFour::of(one_core(by_each), by_each);
    }

    fn turn(&mut self, core: u64) {
        self.number = core;
        if let Some(one) = self.alone.take() {
            self.hold(0, &one.words());
        }
    }

    fn has(&self, op: &Op) -> bool {
        !op.is_leaf()
    }

    fn step(&mut self, op: &Op, ram: &mut Ram) -> Ans {
        if let Some(one) = &mut self.alone {
            let answer = one.step(op, ram);
            self.reads = one.reads();
            return answer;
        }
        let (answer, reads) = self.step_of_four(op, ram);
        self.reads = reads;
        answer
    }

    fn reads(&self) -> u64 {
        self.reads
    }

    fn state(&self) -> State {
        self.nth(place(self.number).unwrap_or(0))
    }

    fn seals(&self) -> bool {
        true
    }

    fn load(&mut self, state: &State) {
        match (&mut self.alone, place(self.number)) {
            (Some(one), _) => one.load(state),
            (None, Some(i)) => self.hold(i, &boxed(state)),
            (None, None) => {}
        }
    }

    fn put(&mut self, part: &Part) {
        if let Some(one) = &mut self.alone {
            return one.put(part);
        }
        let Some(i) = place(self.number) else { return };
        let mut state = self.nth(i);
        state.put(part);
        let mut all = boxed(&state);
        if let Part::Word(at, v) = *part {
            if RETIRED.contains(&at.into()) {
                all[usize::from(at)] = v;
            }
        }
        self.hold(i, &all);
    }

    fn copy(&self) -> Box<dyn Core> {
        Box::new(self.clone())
    }
}

impl Cluster for CFour {
    fn number(&self) -> u64 {
        self.number
    }

    fn is_several(&self) -> bool {
        self.alone.is_none()
    }

    fn nth(&self, i: usize) -> State {
        state_of(&self.words(i)[..])
    }

    fn same(&mut self, i: usize, rust: &RustCore) -> bool {
        if let (Some(one), 0) = (&self.alone, i) {
            return one.holds(rust);
        }
        assert_eq!(self.four.get(i as u64, &mut self.out), DONE);
        let same = rust.is_held_by(&self.words_of(i, &self.out));
        if same {
            std::mem::swap(&mut self.out, &mut self.seen[i]);
        }
        same
    }

    /// All of it, byte by byte.
    fn unmoved(&mut self, i: usize, rust: &RustCore) -> bool {
        if self.alone.is_some() && i == 0 {
            return self.same(i, rust);
        }
        assert_eq!(self.four.get(i as u64, &mut self.out), DONE);
        bytes(&self.out) == bytes(&self.seen[i]) || self.same(i, rust)
    }
}
