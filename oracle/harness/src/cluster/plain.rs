//! The cluster as plain Rust, that of the crate `bindings/rust`, by its methods. What a core of it holds is what it saves,
//! and a core that shall hold something is restored from that and put in.
use super::{place, Cluster, CORES, NO_CORE};
use crate::ffi::{boxed, poke, state_of, Words, RETIRED};
use crate::op::{Ans, Op};
use crate::plain::{access, counted, exception, stopped, view, windows_of, PlainCore};
use crate::rust::RustCore;
use crate::wild::Part;
use crate::{place as words, Core, Ram, State};
use a72::registers::Key;
use a72::{FlippedBit, Level, Stop, SystemOperation};

#[derive(Clone, Default)]
pub struct PlainFour {
    /// A trace's one core, and from its first line that names a core on the four.
    one: PlainCore,
    four: Option<Box<a72::Cluster>>,
    number: u64,
    /// Of each core the level that was put, where it is above 255.
    level: [Option<u64>; CORES],
    reads: u64,
}

/// One operation of the list on the core of this number, by its method; of windows on these bytes.
fn step(four: &mut a72::Cluster, n: u64, op: &Op, ram: &mut a72::Ram, list: &[u8]) -> Result<Ans, Stop> {
    let reached = |pa: Option<u64>| pa.map_or(Ans::None, Ans::Val);
    let done = |()| Ans::Ok;
    match *op {
        Op::Translate(kind, va) => four.translate(n, ram, va, access(kind)).map(Ans::Val),
        Op::DataPa(va) => four.data_pa(n, ram, va).map(reached),
        Op::FetchPa(va) => four.fetch_pa(n, ram, va).map(reached),
        Op::Load(va, size) => four.load_bytes(n, ram, va, size.into()).map(Ans::Val),
        Op::Store(va, size, v) => four.store_bytes(n, ram, va, size.into(), v).map(done),
        Op::Fetch(va) => four.fetch(n, ram, va).map(|v| Ans::Val(v.into())),
        Op::Sys(op1, crn, crm, op2, rt) => {
            let [op1, crn, crm, op2, rt] = [op1, crn, crm, op2, rt].map(u64::from);
            let operation = SystemOperation::new(op1, crn, crm, op2, rt);
            four.system(n, ram, operation).map(done)
        }
        Op::Reg(key, v) => four.write_register(n, Key::from(u64::from(key)), v).map(done),
        Op::Level(level) => four.set_level(n, Level::from(u64::from(level))).map(done),
        Op::Mark(on) => four.set_unprivileged(n, on).map(done),
        Op::SetX(r, v) => four.set_general(n, r.into(), v).map(done),
        Op::Abort(e) => four.take(n, &exception(e)).map(done),
        Op::Census(first, pages) => four.census(n, ram, first, pages).map(|census| counted(&census)),
        Op::Windows => Ok(windows_of(four.windows_of_bytes(n, ram, list))),
        Op::Flip(kind, user, va) => four
            .flip(n, ram, va, access(kind), view(user))
            .map(|bit| bit.map_or(Ans::None, |FlippedBit { pa, bit }| Ans::Bit(pa, bit))),
        _ => unreachable!("{op} is none of the list"),
    }
}

impl PlainFour {
    fn words(&self, i: usize) -> Words {
        let Some(four) = &self.four else {
            return match i {
                0 => boxed(&self.one.state()),
                _ => a72::Core::new().words(),
            };
        };
        let mut all = four.core(i as u64).expect("a core").words();
        if let (Some(level), 255) = (self.level[i], all[words::LEVEL]) {
            all[words::LEVEL] = level;
        }
        all
    }

    /// Core `i` of the four holds what these words hold.
    fn hold(&mut self, i: usize, all: &Words) {
        let level = all[words::LEVEL];
        self.level[i] = (level > 255).then_some(level);
        let core = a72::Core::from_words(all.clone());
        let four = self.four.as_mut().expect("four cores");
        four.put(i as u64, &core).expect("a core");
    }

    /// A poke, by a setter or as an edit of the saved words.
    fn poke(&mut self, op: &Op) -> Ans {
        let Some(i) = place(self.number) else {
            return NO_CORE;
        };
        let (n, four) = (self.number, self.four.as_mut().expect("four cores"));
        match *op {
            Op::PokePc(pc) => four.set_pc(n, pc).expect("a core"),
            Op::PokeGeneration(generation) => four.set_generation(n, generation).expect("a core"),
            _ => {
                let mut all = self.words(i);
                poke::poke(&mut all, op);
                self.hold(i, &all);
            }
        }
        Ans::Ok
    }

    fn step_of_four(&mut self, op: &Op, ram: &mut Ram) -> Ans {
        self.reads = 0;
        if op.is_poke() {
            return self.poke(op);
        }
        let (at, len) = (ram.bytes.lent(op.may_write_ram()), ram.bytes.len());
        // Sound: the window's bytes, which `ram` lends. Where they are sealed nobody here writes them.
        let bytes = unsafe { std::slice::from_raw_parts_mut(at, len) };
        let mut window = a72::Ram::new(ram.base, bytes);
        let (n, four) = (self.number, self.four.as_mut().expect("four cores"));
        let answer = step(four, n, op, &mut window, &ram.list).unwrap_or_else(|stop| stopped(op, stop));
        if !op.looks() {
            self.reads = four.report(n).map_or(0, |report| report.reads);
        }
        answer
    }
}

impl Core for PlainFour {
    fn reset(&mut self) {
        self.one.reset();
        if let Some(four) = &mut self.four {
            **four = a72::Cluster::new();
        }
        (self.level, self.reads) = ([None; CORES], 0);
    }

    fn restart(&mut self) {
        *self = PlainFour::default();
    }

    fn turn(&mut self, core: u64) {
        self.number = core;
        if self.four.is_none() {
            self.four = Some(Box::default());
            let all = boxed(&self.one.state());
            self.hold(0, &all);
        }
    }

    fn has(&self, op: &Op) -> bool {
        !op.is_leaf()
    }

    fn step(&mut self, op: &Op, ram: &mut Ram) -> Ans {
        if self.four.is_some() {
            return self.step_of_four(op, ram);
        }
        let answer = self.one.step(op, ram);
        self.reads = self.one.reads();
        answer
    }

    fn reads(&self) -> u64 {
        self.reads
    }

    fn state(&self) -> State {
        self.nth(place(self.number).unwrap_or(0))
    }

    fn seals(&self) -> bool {
        true
    }

    fn load(&mut self, state: &State) {
        match (&self.four, place(self.number)) {
            (None, _) => self.one.load(state),
            (Some(_), Some(i)) => self.hold(i, &boxed(state)),
            (Some(_), None) => {}
        }
    }

    fn put(&mut self, part: &Part) {
        if self.four.is_none() {
            return self.one.put(part);
        }
        let Some(i) = place(self.number) else { return };
        let mut state = self.nth(i);
        state.put(part);
        let mut all = boxed(&state);
        if let Part::Word(at, v) = *part {
            if RETIRED.contains(&at.into()) {
                all[usize::from(at)] = v;
            }
        }
        self.hold(i, &all);
    }

    fn copy(&self) -> Box<dyn Core> {
        Box::new(self.clone())
    }
}

impl Cluster for PlainFour {
    fn number(&self) -> u64 {
        self.number
    }

    fn is_several(&self) -> bool {
        self.four.is_some()
    }

    fn nth(&self, i: usize) -> State {
        state_of(&self.words(i)[..])
    }

    fn same(&mut self, i: usize, rust: &RustCore) -> bool {
        rust.is_held_by(&self.words(i))
    }

    /// Counters, what is pending, level and mark.
    fn unmoved(&mut self, i: usize, rust: &RustCore) -> bool {
        let Some(four) = &self.four else {
            return self.same(i, rust);
        };
        let core = four.core(i as u64).expect("a core");
        let (own, t) = (core.counters(), &rust.cpu.tlb);
        let levels = own.levels.iter().zip(rust.levels());
        levels
            .into_iter()
            .all(|(a, b)| (a.hits, a.walks) == (b.hits, b.walks))
            && (own.flushes, own.drops, own.epoch) == (t.flushes, t.drops, t.epoch)
            && core.broadcast().is_some() == t.broadcast.is_some()
    }
}
