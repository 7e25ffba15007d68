//! The core as plain Rust, the crate `bindings/rust`: what rustc makes of the text that was proved. It runs by its
//! methods; what it holds is what it saves, after every operation, and what it shall hold it is restored from.
use crate::census::{COUNTS, FLAT, RIGHTS, STATUS};
use crate::ffi::{boxed, poke, state_of, Words, RETIRED};
use crate::op::{Ans, Op};
use crate::place;
use crate::rust::RustCore;
use crate::wild::Part;
use crate::{Core, Ram, State};
use a72::registers::Key;
use a72::{Access, Census, Exception, FlippedBit, Level, Status, Stop, SystemOperation, View, WindowsError};
use pimu::aarch64::Exception as Pimu;

#[derive(Clone, Default)]
pub struct PlainCore {
    core: Box<a72::Core>,
    /// The level that was put, where it is above 255.
    level: Option<u64>,
    /// The descriptors that the last operation read.
    reads: u64,
}

/// A translation's kind: 1 read, 2 write, 4 fetch.
pub fn access(kind: u8) -> Access {
    match kind {
        1 => Access::Read,
        2 => Access::Write,
        4 => Access::Fetch,
        _ => unreachable!("{kind} is no kind"),
    }
}

/// Whose rights count.
pub fn view(user: bool) -> View {
    if user {
        View::User
    } else {
        View::Privileged
    }
}

pub fn exception(e: Pimu) -> Exception {
    match e {
        Pimu::Undefined => Exception::Undefined,
        Pimu::Svc(i) => Exception::Svc(i),
        Pimu::Hvc(i) => Exception::Hvc(i),
        Pimu::Smc(i) => Exception::Smc(i),
        Pimu::Brk(i) => Exception::Brk(i),
        Pimu::DataAbort { addr, write, fsc } => Exception::DataAbort {
            address: addr,
            write,
            status: Status(fsc),
        },
        Pimu::InsnAbort { addr, fsc } => Exception::InstructionAbort {
            address: addr,
            status: Status(fsc),
        },
        Pimu::PcAlignment => Exception::PcAlignment,
    }
}

pub fn counted(census: &Census) -> Ans {
    let mut counts = Box::new([0; COUNTS]);
    counts[STATUS..STATUS + 64].copy_from_slice(&census.statuses);
    counts[RIGHTS..RIGHTS + 64].copy_from_slice(&census.rights);
    counts[FLAT] = census.flat;
    Ans::Counts(counts)
}

/// What a list of windows comes to.
pub fn windows(core: &a72::Core, ram: &a72::Ram, list: &[u8]) -> Ans {
    windows_of(core.windows_of_bytes(ram, list))
}

pub fn windows_of(found: Result<Option<(usize, usize)>, WindowsError>) -> Ans {
    match found {
        Ok(pair) => Ans::of(Ok(pair)),
        Err(WindowsError::Page(f)) => Ans::Page(f.window as u64, f.page as u64, f.status.0),
        Err(refused) => Ans::Number(refused.number() as u8),
    }
}

/// The answer of an operation that a stop ended.
pub fn stopped(op: &Op, stop: Stop) -> Ans {
    match (op, stop) {
        (_, Stop::Refused(check)) => Ans::Number(check.number() as u8),
        (_, Stop::Undefined) => Ans::Undefined,
        (_, Stop::Unimplemented) => Ans::Unimplemented,
        (Op::Translate(..), Stop::Fault(f)) => Ans::Fault(f.address, f.status.0),
        (_, Stop::Fault(f)) => match f.access {
            Access::Fetch => Ans::Insn(f.address, f.status.0),
            Access::Read | Access::Write => Ans::Data(f.address, f.access == Access::Write, f.status.0),
        },
    }
}

/// One operation of the list, by its method; of windows on these bytes.
fn step(core: &mut a72::Core, op: &Op, ram: &mut a72::Ram, list: &[u8]) -> Result<Ans, Stop> {
    let reached = |pa: Option<u64>| pa.map_or(Ans::None, Ans::Val);
    let done = |()| Ans::Ok;
    match *op {
        Op::Translate(kind, va) => core.translate(ram, va, access(kind)).map(Ans::Val),
        Op::DataPa(va) => core.data_pa(ram, va).map(reached),
        Op::FetchPa(va) => core.fetch_pa(ram, va).map(reached),
        Op::Load(va, size) => core.load_bytes(ram, va, size.into()).map(Ans::Val),
        Op::Store(va, size, v) => core.store_bytes(ram, va, size.into(), v).map(done),
        Op::Fetch(va) => core.fetch(ram, va).map(|v| Ans::Val(v.into())),
        Op::Sys(op1, crn, crm, op2, rt) => {
            let [op1, crn, crm, op2, rt] = [op1, crn, crm, op2, rt].map(u64::from);
            core.system(ram, SystemOperation::new(op1, crn, crm, op2, rt))
                .map(done)
        }
        Op::Reg(key, v) => core.write_register(Key::from(u64::from(key)), v).map(done),
        Op::Level(level) => core.set_level(Level::from(u64::from(level))).map(done),
        Op::Mark(on) => core.set_unprivileged(on).map(done),
        Op::SetX(r, v) => core.set_general(r.into(), v).map(done),
        Op::Abort(e) => core.take(&exception(e)).map(done),
        Op::Census(first, pages) => core.census(ram, first, pages).map(|census| counted(&census)),
        Op::Windows => Ok(windows(core, ram, list)),
        Op::Flip(kind, user, va) => core
            .flip(ram, va, access(kind), view(user))
            .map(|found| found.map_or(Ans::None, |FlippedBit { pa, bit }| Ans::Bit(pa, bit))),
        _ => unreachable!("{op} is none of the list"),
    }
}

impl PlainCore {
    /// The crate's own core.
    pub fn core(&self) -> &a72::Core {
        &self.core
    }

    /// All that it holds, as words.
    fn words(&self) -> Words {
        let mut words = self.core.words();
        if let (Some(level), 255) = (self.level, words[place::LEVEL]) {
            words[place::LEVEL] = level;
        }
        words
    }

    /// Hold what these words hold.
    fn hold(&mut self, words: &Words) {
        let level = words[place::LEVEL];
        self.level = (level > 255).then_some(level);
        self.core.restore(words);
    }

    /// A poke, by a setter or as an edit of the saved words.
    fn poke(&mut self, op: &Op) {
        match *op {
            Op::PokePc(pc) => self.core.set_pc(pc),
            Op::PokeGeneration(generation) => self.core.set_generation(generation),
            Op::TakeBroadcast => drop(self.core.take_broadcast()),
            _ => {
                let mut words = self.words();
                poke::poke(&mut words, op);
                self.hold(&words);
            }
        }
    }
}

impl Core for PlainCore {
    fn reset(&mut self) {
        *self = PlainCore::default();
    }

    fn has(&self, op: &Op) -> bool {
        !op.is_leaf()
    }

    fn step(&mut self, op: &Op, ram: &mut Ram) -> Ans {
        self.reads = 0;
        if op.is_poke() {
            self.poke(op);
            return Ans::Ok;
        }
        let (at, len) = (ram.bytes.lent(op.may_write_ram()), ram.bytes.len());
        // Sound: the window's bytes, which `ram` lends. Where they are sealed nobody here writes them.
        let bytes = unsafe { std::slice::from_raw_parts_mut(at, len) };
        let mut window = a72::Ram::new(ram.base, bytes);
        let answer = step(&mut self.core, op, &mut window, &ram.list).unwrap_or_else(|stop| stopped(op, stop));
        // What looks at the core alone leaves the report of the operation before it.
        if !op.looks() {
            self.reads = self.core.report().reads;
        }
        answer
    }

    fn reads(&self) -> u64 {
        self.reads
    }

    fn state(&self) -> State {
        state_of(&self.words()[..])
    }

    fn seals(&self) -> bool {
        true
    }

    fn holds(&self, rust: &RustCore) -> bool {
        rust.is_held_by(&self.words())
    }

    fn load(&mut self, state: &State) {
        self.hold(&boxed(state));
    }

    fn put(&mut self, part: &Part) {
        let mut state = self.state();
        state.put(part);
        let mut words = boxed(&state);
        if let Part::Word(at, v) = *part {
            if RETIRED.contains(&at.into()) {
                words[usize::from(at)] = v;
            }
        }
        self.hold(&words);
    }

    fn copy(&self) -> Box<dyn Core> {
        Box::new(self.clone())
    }
}

#[cfg(test)]
mod tests {
    use super::*;
    use crate::compare::compare;
    use crate::generate::{trace, Style};

    #[test]
    fn it_is_the_rust() {
        for (style, seeds) in [(Style::Strict, 0..6), (Style::Wild, 6..12), (Style::Full, 12..18)] {
            for seed in seeds {
                let differ = compare(&trace(seed, 400, style), &mut PlainCore::default(), |_| {});
                assert!(differ.is_none(), "seed {seed}: {}", differ.unwrap().report);
            }
        }
    }
}
