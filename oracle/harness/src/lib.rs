//! An oracle for stage 1 of the A72: the scope's operations on pimu's own Rust, and traces of them.
pub mod bench;
pub mod census;
pub mod cli;
pub mod cluster;
pub mod compare;
pub mod coverage;
pub mod domain;
pub mod expect;
pub mod faithful;
pub mod ffi;
pub mod flips;
pub mod generate;
pub mod grid;
pub mod instructions;
pub mod model;
pub mod op;
pub mod plain;
pub mod ram;
pub mod recorded;
pub mod refusal;
pub mod rust;
pub mod shrink;
pub mod state;
pub mod tally;
pub mod text;
#[cfg(feature = "walk")]
pub mod walk;
pub mod wild;
pub mod windows;

// The C boundary as the Rust crate declares it: the functions, the numbers that they give, the places of a saved core's
// words and of a census's counts; `ffi` has its memory for a core.
#[path = "../../../bindings/rust/src/count.rs"]
pub mod count;
#[allow(dead_code)]
#[path = "../../../bindings/rust-archive/src/library.rs"]
mod library;
#[path = "../../../bindings/rust/src/number.rs"]
pub mod number;
#[path = "../../../bindings/rust/src/place.rs"]
pub mod place;

pub use op::{Ans, Line, Op};
pub use ram::Ram;
pub use refusal::refusal;
pub use state::State;

/// One core under the scope's operations. Three stand here: pimu's Rust ([`rust::RustCore`]), a model written
/// from the scope's words ([`model::DocCore`]), and whatever is behind the C boundary ([`ffi::CCore`]). What a core ought
/// to do is the Rust's in its domain; [`domain`] says what stands in its place outside it.
pub trait Core {
    /// Become a fresh core, the one `Cpu::new` gives.
    fn reset(&mut self);
    /// Be as a trace begins: one fresh core.
    fn restart(&mut self) {
        self.reset();
    }
    /// Of four cores the one with this number is spoken to from now on; one core alone becomes core 0 of four.
    fn turn(&mut self, core: u64) {
        unreachable!("one core alone: no core {core}")
    }
    /// Whether the core has this operation. One that it has not is left out for it, and counted as such.
    fn has(&self, _op: &Op) -> bool {
        true
    }
    /// Carry out one operation that the core has, on the RAM lent to it.
    fn step(&mut self, op: &Op, ram: &mut Ram) -> Ans;
    /// How many descriptors the last operation read; 0 where it was refused, and of operations that report none. Of a
    /// walk asked for as a leaf, that walk's.
    fn reads(&self) -> u64;
    /// All that it holds.
    fn state(&self) -> State;
    /// Whether it is lent sealed bytes wherever it may not write them.
    fn seals(&self) -> bool {
        false
    }
    /// Whether it holds all that the Rust holds.
    fn holds(&self, rust: &rust::RustCore) -> bool {
        self.state() == rust.state()
    }
    /// Hold this from now on.
    fn load(&mut self, state: &State);
    /// Hold this part from now on, and all else as before.
    fn put(&mut self, part: &wild::Part) {
        let mut state = self.state();
        state.put(part);
        self.load(&state);
    }
    fn copy(&self) -> Box<dyn Core>;
}

/// Feed a trace's line to a core and its RAM; `None` where the line is no operation, or none that the core has.
pub fn feed(line: &Line, core: &mut dyn Core, ram: &mut Ram) -> Option<Ans> {
    match line {
        Line::Fresh => core.reset(),
        Line::Window(base, len) => {
            ram.base = *base;
            ram.bytes.resize(*len as usize);
        }
        Line::Zero => ram.bytes.fill(0),
        Line::Poke(addr, v) => ram.poke(*addr, *v),
        Line::Put(part) => core.put(part),
        Line::Bytes(piece) => ram.list.extend(piece.bytes()),
        Line::Core(n) => core.turn(*n),
        Line::Op(op) if core.has(op) => {
            let answer = core.step(op, ram);
            ram.taken(op);
            return Some(answer);
        }
        Line::Op(_) => {}
    }
    None
}
