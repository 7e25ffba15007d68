//! Copies of recorded cores: each goes on as its core does, unrecorded, and by its hints.
use std::panic::{catch_unwind, AssertUnwindSafe};

use crate::bus::Bus;
use crate::encode::*;
use crate::pair::Pair;
use crate::retrace;
use crate::scene::*;
use crate::side::{Ended, Side};
// The crate with mistakes in it, of which none is chosen unless it is this one's turn: its times are nobody's concern.
use mistaken::aarch64::{Abort, Cpu, Memory};

/// A bus that lends no RAM: where the core has to be asked, it panics.
struct Unlent<'a>(&'a mut Bus);

impl Memory for Unlent<'_> {
    fn read(&mut self, addr: u64, size: u32) -> Result<u64, Abort> {
        Memory::read(self.0, addr, size)
    }

    fn write(&mut self, addr: u64, size: u32, value: u64) -> Result<(), Abort> {
        Memory::write(self.0, addr, size, value)
    }
}

/// A copy takes the place of the first core, and goes on until an instruction that the guests leave out.
pub fn goes_on<B: Side>(pair: &mut Pair<B>, copy: B, steps: u64) -> Result<(), String> {
    pair.b[0] = copy;
    for _ in 0..steps {
        if let Ended::Unimplemented(_) | Ended::Unsupported | Ended::Vector =
            pair.step(0).map_err(|e| format!("a copy: {e}"))?
        {
            break;
        }
    }
    pair.finish()
}

/// A loop on one page, recorded, and a copy of its core: after a step the hints serve it, for it needs no RAM lent.
pub fn by_hints(path: &str) -> Result<(), String> {
    let mut s = Scene::new();
    let (root, va) = (s.root(), 0x10_0000);
    s.map(root, va, FRAMES | PAGE);
    let mut p = Asm::new(CODE);
    boot(&mut p, root);
    p.li(1, va)
        .label("again")
        .put(&[ldr(4, 1, 8), add_imm(4, 4, 1), str(4, 1, 8)])
        .go("again");
    s.code(p);
    let mut pair: Pair<Cpu> = Pair::new(s.bus, 1);
    pair.start(0, CODE);
    pair.b[0].record(path);
    for _ in 0..100 {
        pair.step(0)?;
    }
    let copy = pair.b[0].clone();
    pair.b[0].end_recording();
    retrace::check(path, &pair.b[0], &pair.bus_b)?;
    goes_on(&mut pair, copy, 1)?;
    for _ in 0..100 {
        pair.a[0].step(&mut pair.bus_a);
        let (core, bus) = (&mut pair.b[0], &mut pair.bus_b);
        catch_unwind(AssertUnwindSafe(|| core.step_system(&mut Unlent(bus))))
            .map_err(|_| format!("a copy has no hint at {:x}", pair.b[0].pc()))?;
    }
    pair.step(0)?;
    pair.finish()
}

/// Whether that goes wrong.
pub fn check(path: &str) -> usize {
    let ended = by_hints(path);
    match &ended {
        Ok(()) => println!("a copy of a recorded core goes on by its hints"),
        Err(e) => println!("{e}"),
    }
    usize::from(ended.is_err())
}
