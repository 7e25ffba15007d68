//! The C boundary, and the numeric forms that cross it. Everything here is in 64-bit words.
//!
//! # The functions
//!
//! A core is a static library that exports the functions of `include/a72.h`, which says what each does, which number it
//! gives ([`crate::number`]) and where a saved core's words hold what ([`crate::place`]). What an operation means is the
//! scope's: the Rust function of that name. `a72_init_at` makes the core that `Cpu::new` makes.
//!
//! [`CCore`] runs by `a72_step`, or, with the feature `rattle`, by the function for each operation (`ffi/each.rs`); the
//! counts of a census are `a72_census`'s in both, what a list of windows comes to `a72_windows`'s, and a flipped bit
//! `a72_flip`'s. What the core holds is what `a72_save` gives, after every operation, and what it shall hold goes in by `a72_restore`. Without the feature the model stands behind these functions.
//! Four cores run by the functions of the names `a72_cluster_..` ([`four`], [`crate::cluster::boundary`]).
//!
//! # An operation: 8 words
//!
//! The code, then the arguments; words that are not named are zero. `E` is an exception, four words: 0 Undefined;
//! 1 SVC, 2 HVC, 3 SMC, 4 BRK, then the immediate (16 bits); 5 data abort, then address, write (0 or 1), status (8
//! bits); 6 instruction abort, then address, status; 7 PC alignment. Four words of which one is none of these, or does
//! not fit, are no exception.
//!
//! | Code | Operation | Arguments |
//! |---|---|---|
//! | 1 | `tr` translate | kind (1 read, 2 write, 4 fetch), address |
//! | 2, 3 | `dpa` data_pa, `fpa` fetch_pa | address |
//! | 4 | `ld` load | address, size |
//! | 5 | `st` store | address, size, value |
//! | 6 | `if` fetch | address |
//! | 7 | `sys` system operation | op1, CRn, CRm, op2, register |
//! | 8 | `reg` register write | key, value |
//! | 9 | `level` | level |
//! | 10 | `mark` | 0 or 1 |
//! | 11 | `x` general register | number, value |
//! | 12 | `abort` abort entry | E |
//! | 13 | `census` page census | first address, number of pages |
//! | 14 | `win` list of windows; it takes the bytes of the list that lines of code 68 brought | |
//! | 15 | `flip` one flipped bit | kind as of `tr`, 0 or 1 for EL0's view, address |
//! | 20 | `l-asid` | |
//! | 21 | `l-on` stage1_on | regime (1 to 3) |
//! | 22, 23 | `l-untag`, `l-walk` | regime, address |
//! | 24 | `l-bits` pa_bits | code (all 64 bits) |
//! | 25 | `l-perm` perm_bits | read 1 + write 2 + fetch 4 |
//! | 26 | `l-bank` banked | key |
//! | 27 | `l-vec` vector_group | from, to, SPSel |
//! | 28 | `l-syn` syndrome | from, to, PC, E |
//! | 40 to 42 | `p-level`, `p-pc`, `p-spsel`: set it | value |
//! | 43 | `p-gen`: this is the generation; live entries stay live, all others are cleared | generation |
//! | 44 | `p-cnt`: hits and walks of EL0, flushes, drops, epoch become this, hits and walks of EL1 to EL3 0 | value |
//! | 45 | `p-bc`: the pending broadcast is taken (none) | |
//!
//! Codes 1 to 15 are the list, and only they reach `a72_step` and `a72_cluster_step`. 20 to 28
//! are leaves, which change nothing: the core behind the boundary has none, so they are left out for it and counted
//! ([`Core::has`]). 40 to 45 are pokes, which only the comparer uses: the harness restores the core from saved words that
//! it edited, or, by each function, calls the library's own setter where there is one (41, 43, 45). The lines of a trace around the operations have codes in files: 60 `fresh`; 61 `window` base, length; 62 `zero`; 63
//! `poke` address, value; 64 `core` number; 69 `w-word` place, value; 65 `w-hint` slot, key, page; 66 `w-entry` slot, four words; 67
//! `w-fetch` page, level, physical page; 68 `bytes`: how many, at most 48, then they in six words, little-endian, the rest 0. They
//! come to those that stand since the last `win`; a trace's line of more bytes is several of these.
//!
//! Levels, sizes, fields, register numbers and keys are 32-bit numbers and may be any of them: the checks 1 to 7
//! are the core's. A translation's kind and a leaf's regime are always one of those named.
//!
//! # An answer: 4 words
//!
//! | Code | Answer | Words |
//! |---|---|---|
//! | 0 | ok | |
//! | 1 | value | value |
//! | 2 | none: `dpa`, `fpa` would fault; `l-bank` knows no such key; `win` no two windows share a page; `flip` no single bit changes the answer | |
//! | 3 | a walk's leaf | address; permissions + level << 8; attribute index + shareability << 8 + NS << 16 + global << 24 |
//! | 4 | pair: `l-bank` register and level; `l-syn` ESR and FAR; `win` two windows | first, second |
//! | 5 | the check's number | 1 to 9 |
//! | 6, 7 | Undefined, Unimplemented | |
//! | 8 | fault of a translation (also `l-walk`) | address, status |
//! | 9 | data abort | address, status, write |
//! | 10 | instruction abort | address, status |
//! | 11 | the counts of a census | how many are not 0, the digest of all 129 |
//! | 12 | the first page that faults of a list of windows | window, page, status |
//! | 13 | a flipped bit | the descriptor's address, the bit |
//!
//! `tr`, `dpa`, `fpa`, `ld`, `if` give a value; `st`, `sys`, `reg`, `level`, `mark`, `x`, `abort` and the pokes give
//! ok. `census`, `win` and `flip` give ok by `a72_step`, or 1 or 2; the counts are `a72_census`'s, what a list comes to `a72_windows`'s, the bit `a72_flip`'s, and codes 11 to 13 stand in records alone. `l-bank`
//! numbers the registers SCTLR 0, TCR, TTBR0, TTBR1, MAIR, VBAR, ELR, SPSR, ESR, FAR, SCR, HCR, VPIDR, VMPIDR 13.
//! `l-syn` without a FAR gives a value, the ESR.
//!
//! `a72_step` writes a fifth word after these: the descriptors that the operation read, 0 where the code is 5, 6 or 7.
//!
//! # A state
//!
//! [`crate::place`] has its words, and `include/a72.h` the slots, tags and keys of entries and hints. Words 70 and 71 hold
//! nothing: 0 is saved there, whatever a wild core was restored from.
//!
//! A level is a byte in the library. A poke may put a larger one, which is 255 there and refused as every level above 3 is:
//! [`CCore`] keeps the number beside the core.
//!
//! An entry is live where its tag is not 0 and its generation is the present one. One of a later generation, which only
//! a wild core has, is compared too: it would be live once that generation comes. What stands in other entries and
//! behind the keys and flags that say 'none' is free.
#[cfg(feature = "rattle")]
pub mod each;
pub mod four;
#[path = "../../../bindings/rust-archive/src/held.rs"]
mod held;
#[path = "../../../bindings/rust-archive/src/held_cluster.rs"]
mod held_cluster;
pub(crate) mod looks;
pub(crate) mod poke;
mod state;
mod words;

#[cfg(not(feature = "rattle"))]
mod stand_in;

use crate::number;
use crate::op::{Ans, Line, Op};
use crate::place;
use crate::rust::RustCore;
use crate::wild::Part;
use crate::{Core, Ram, State};
pub use held::{Held, CORE_SIZE, HANDLE_SIZE};
pub use held_cluster::HeldCluster;
pub use looks::Looks;
use looks::{census, counted, flip, looked, windows};
pub use state::{levels_of, state_of, words_of, ENTRY_WORDS, HINT_WORDS, LEVEL_WORDS, RETIRED};
pub use words::{decode, decode_answer, encode, encode_answer, exception};

#[cfg(feature = "rattle")]
use crate::library;
#[cfg(not(feature = "rattle"))]
use stand_in as library;

use library::a72_step;

/// What stands where the library has to write: no answer and no saved word.
pub(crate) const UNWRITTEN: u64 = 0xA5A5_A5A5_A5A5_A5A5;

/// A state's words.
pub type Words = Box<place::State>;

/// The words of a state, in a box.
pub fn boxed(state: &State) -> Words {
    words_of(state).try_into().expect("as many words as a state has")
}

/// The words that `a72_save` writes.
pub fn saved(core: &Held) -> Words {
    let mut words: Words = vec![UNWRITTEN; place::WORDS].try_into().expect("as many words");
    core.save_to(&mut words);
    assert_eq!(words[RETIRED], [0; 2], "of the words that hold nothing");
    words
}

/// One operation of the list on a core: its answer, and the descriptors that it read.
type Step = fn(&mut Held, &Op, &mut Ram) -> (Ans, u64);
/// A poke by the library's own setter, where it has one.
type Set = fn(&mut Held, &Op) -> bool;

/// By `a72_step`.
fn step(core: &mut Held, op: &Op, ram: &mut Ram) -> (Ans, u64) {
    // A step that looks writes nothing.
    let to_write = op.may_write_ram() && !op.looks();
    let (at, len) = (ram.bytes.lent(to_write), ram.bytes.len());
    let (line, mut words) = (encode(&Line::Op(*op)), [UNWRITTEN; 5]);
    // Sound: each pointer is that of an array or a vector, with its own length, and no two overlap.
    let code = unsafe { a72_step(&line, core.handle(), ram.base, at, len, &mut words) };
    let [ans @ .., reads] = words;
    let said = match code {
        number::DONE => decode_answer(&ans),
        _ => Ans::Panic,
    };
    match *op {
        Op::Census(first, pages) => (counted(said, census(core, first, pages, ram)), reads),
        Op::Windows => (looked(said, windows(core, ram)), reads),
        Op::Flip(kind, user, va) => (looked(said, flip(core, kind, user, va, ram)), reads),
        _ => (said, reads),
    }
}

/// The core behind the C boundary.
#[derive(Clone)]
pub struct CCore {
    core: Held,
    /// The level that was put, where it is above 255.
    level: Option<u64>,
    /// The descriptors that the last operation read.
    reads: u64,
    step: Step,
    set: Set,
}

impl CCore {
    /// By `a72_step`.
    pub fn new() -> CCore {
        CCore {
            core: Held::new(),
            level: None,
            reads: 0,
            step,
            set: |_, _| false,
        }
    }

    /// By the function for each operation.
    #[cfg(feature = "rattle")]
    pub fn by_each() -> CCore {
        CCore {
            step: each::step,
            set: each::set,
            ..CCore::new()
        }
    }

    /// All that it holds, as words.
    pub fn words(&self) -> Words {
        let mut words = saved(&self.core);
        if let (Some(level), 255) = (self.level, words[place::LEVEL]) {
            words[place::LEVEL] = level;
        }
        words
    }

    /// Hold what these words hold.
    fn hold(&mut self, words: &Words) {
        let level = words[place::LEVEL];
        self.level = (level > 255).then_some(level);
        self.core.restore(words);
    }

    /// A poke, by a setter or as an edit of the saved words.
    fn poke(&mut self, op: &Op) -> Ans {
        if !(self.set)(&mut self.core, op) {
            let mut words = self.words();
            poke::poke(&mut words, op);
            self.hold(&words);
        }
        Ans::Ok
    }

    /// An operation that moves no word of the state, dead records included.
    fn inspect(&mut self, op: &Op, ram: &mut Ram) -> (Ans, u64) {
        let before = self.words();
        let (answer, reads) = (self.step)(&mut self.core, op, ram);
        if self.words() == before {
            (answer, reads)
        } else {
            (Ans::Panic, reads)
        }
    }
}

impl Default for CCore {
    fn default() -> CCore {
        CCore::new()
    }
}

impl Core for CCore {
    fn reset(&mut self) {
        self.core = Held::new();
        (self.level, self.reads) = (None, 0);
    }

    fn has(&self, op: &Op) -> bool {
        !op.is_leaf()
    }

    fn step(&mut self, op: &Op, ram: &mut Ram) -> Ans {
        let (answer, reads) = match op {
            _ if op.looks() => self.inspect(op, ram),
            _ if op.is_poke() => (self.poke(op), 0),
            _ => (self.step)(&mut self.core, op, ram),
        };
        self.reads = reads;
        answer
    }

    fn reads(&self) -> u64 {
        self.reads
    }

    fn state(&self) -> State {
        state_of(&self.words()[..])
    }

    fn seals(&self) -> bool {
        true
    }

    fn holds(&self, rust: &RustCore) -> bool {
        rust.is_held_by(&self.words())
    }

    fn load(&mut self, state: &State) {
        self.hold(&boxed(state));
    }

    /// What is put into the words that hold nothing is restored from too: nothing of it stays.
    fn put(&mut self, part: &Part) {
        let mut state = self.state();
        state.put(part);
        let mut words = boxed(&state);
        if let Part::Word(at, v) = *part {
            if RETIRED.contains(&at.into()) {
                words[usize::from(at)] = v;
            }
        }
        self.hold(&words);
    }

    fn copy(&self) -> Box<dyn Core> {
        Box::new(self.clone())
    }
}

#[cfg(test)]
mod tests {
    use super::*;

    #[test]
    fn retired_words_hold_nothing() {
        let mut core = CCore::new();
        core.put(&Part::Word(70, 7));
        core.put(&Part::Word(71, u64::MAX));
        assert_eq!(core.words()[RETIRED], [0; 2]);
        assert!(core.words() == CCore::new().words());
    }

    /// A level that no byte holds stands beside the core, until another is put.
    #[test]
    fn a_large_level_is_kept() {
        let (mut core, mut ram) = (CCore::new(), Ram::default());
        for level in [0xFFFF_FFFF, 256, 255, 4, 3] {
            core.step(&Op::PokeLevel(level), &mut ram);
            assert_eq!(core.state().level, level);
            assert_eq!(core.copy().state().level, level);
            let answer = core.step(&Op::Mark(true), &mut ram);
            assert_eq!(answer, if level > 3 { Ans::Number(1) } else { Ans::Ok });
            assert_eq!(core.state().level, level);
        }
        core.step(&Op::PokeLevel(256), &mut ram);
        core.reset();
        core.step(&Op::PokeLevel(255), &mut ram);
        assert_eq!(core.state().level, 255);
    }

    #[test]
    fn words_that_name_nothing() {
        let core = Held::new();
        let before = saved(&core);
        for words in [
            &[0][..],
            &[16],
            &[20],
            &[1, 3],
            &[15],
            &[15, 3],
            &[15, 1, 2],
            &[15, 4, u64::MAX],
            &[10, 2],
            &[12, 8],
            &[12, 1, 0x1_0000],
            &[12, 4, u64::MAX],
            &[12, 5, 0, 2],
            &[12, 5, 0, 1, 0x100],
            &[12, 6, 0, 0x100],
        ] {
            let (mut op, mut ans) = ([0; 8], [UNWRITTEN; 5]);
            op[..words.len()].copy_from_slice(words);
            let mut ram = [UNWRITTEN as u8; 8];
            // Sound: each pointer is that of a core or an array, with its own length, and no two overlap.
            let code = unsafe { a72_step(&op, core.handle(), 0, ram.as_mut_ptr(), 8, &mut ans) };
            assert_eq!(code, number::NAMES_NOTHING, "{words:?}");
            assert!(ans == [UNWRITTEN; 5] && saved(&core) == before && ram == [UNWRITTEN as u8; 8]);
        }
    }
}
