//! A core whose walks are those of a static library's `a72_walk`, and all else the model's: to compare a walk alone.
use crate::library::a72_walk;
use crate::model::DocCore;
use crate::number::{self, DONE};
use crate::op::{Ans, Op};
use crate::state::REGS;
use crate::{Core, Ram, State};

/// The model, with another walk behind `l-walk`.
#[derive(Default)]
pub struct WalkCore {
    model: DocCore,
    /// The descriptors that the last operation read.
    reads: u64,
}

/// A register by its name in [`REGS`].
fn reg(state: &State, name: &str) -> u64 {
    let i = REGS.iter().position(|r| *r == name);
    state.regs[i.expect("a register's name")]
}

impl WalkCore {
    fn walk(&mut self, regime: u8, va: u64, ram: &Ram) -> Ans {
        let state = self.model.state();
        let own = |name: &str| reg(&state, &format!("{name}{regime}"));
        let bank = [
            own("SCTLR"),
            own("TCR"),
            own("TTBR0_"),
            reg(&state, "TTBR1"),
            reg(&state, "SCR"),
            reg(&state, "HCR"),
        ];
        let mut leaf = [0; 6];
        // Sound: each pointer and length are one array's or vector's own.
        let code = unsafe {
            a72_walk(
                &bank,
                regime.into(),
                va,
                &mut leaf,
                ram.base,
                ram.bytes.as_ptr(),
                ram.bytes.len(),
            )
        };
        let [oa, desc, perms, level, global, reads] = leaf;
        self.reads = reads;
        if code != DONE {
            return number::status(code).map_or(Ans::Panic, |s| Ans::Fault(va, s));
        }
        Ans::Leaf(
            oa,
            perms as u8,
            level as u8,
            (desc >> 2 & 7) as u8,
            (desc >> 8 & 3) as u8,
            desc >> 5 & 1 != 0,
            global != 0,
        )
    }
}

impl Core for WalkCore {
    fn reset(&mut self) {
        self.model.reset()
    }

    fn step(&mut self, op: &Op, ram: &mut Ram) -> Ans {
        match *op {
            Op::LeafWalk(regime, va) => self.walk(regime, va, ram),
            _ => {
                let answer = self.model.step(op, ram);
                self.reads = self.model.reads();
                answer
            }
        }
    }

    fn reads(&self) -> u64 {
        self.reads
    }

    fn state(&self) -> State {
        self.model.state()
    }

    fn load(&mut self, state: &State) {
        self.model.load(state)
    }

    fn copy(&self) -> Box<dyn Core> {
        self.model.copy()
    }
}
