//! The library's functions, called. Each takes a core, and a window of RAM where it needs one, and gives a number; where
//! it is handed an answer that stands beside the number, zeros where nothing of it is written.
#![allow(unsafe_code)]

use crate::held::Held;
use crate::library::{self, Answer};
use plain::count::{Counts, COUNTS};
use plain::number::DONE;

pub mod cluster;

// Why each call below is sound: the library reads and writes the core's memory, the bytes of `ram` up to the length
// beside it, and the answer or the array it answers in, and keeps no pointer. The core has its memory for
// itself and is not `Sync`, so that no other call uses it; the others come from references that live through the
// call, and what is written is borrowed exclusively or local, so nothing overlaps. The library asks nothing of the
// values: whatever they are, it stays inside and ends, which is proved.

#[inline]
pub fn translate(core: &mut Held, va: u64, kind: u64, base: u64, ram: &[u8]) -> (u64, Answer) {
    let mut answer = Answer::default();
    // Sound: a core, a slice with its own length, and a local answer.
    let n = unsafe {
        library::a72_translate(
            core.handle(),
            va,
            kind,
            &mut answer,
            base,
            ram.as_ptr(),
            ram.len(),
        )
    };
    (n, answer)
}

#[inline]
pub fn data_pa(core: &mut Held, va: u64, base: u64, ram: &[u8]) -> (u64, Answer) {
    let mut answer = Answer::default();
    // Sound: a core, a slice with its own length, and a local answer.
    let n = unsafe { library::a72_data_pa(core.handle(), va, &mut answer, base, ram.as_ptr(), ram.len()) };
    (n, answer)
}

#[inline]
pub fn fetch_pa(core: &mut Held, va: u64, base: u64, ram: &[u8]) -> (u64, Answer) {
    let mut answer = Answer::default();
    // Sound: a core, a slice with its own length, and a local answer.
    let n = unsafe { library::a72_fetch_pa(core.handle(), va, &mut answer, base, ram.as_ptr(), ram.len()) };
    (n, answer)
}

#[inline]
pub fn load(core: &mut Held, va: u64, size: u64, base: u64, ram: &[u8]) -> (u64, Answer) {
    let mut answer = Answer::default();
    // Sound: a core, a slice with its own length, and a local answer.
    let n = unsafe {
        library::a72_load(
            core.handle(),
            va,
            size,
            &mut answer,
            base,
            ram.as_ptr(),
            ram.len(),
        )
    };
    (n, answer)
}

#[inline]
pub fn store(core: &mut Held, va: u64, size: u64, value: u64, base: u64, ram: &mut [u8]) -> (u64, Answer) {
    let (mut answer, at, len) = (Answer::default(), ram.as_mut_ptr(), ram.len());
    // Sound: a core, a slice borrowed exclusively with its own length, and a local answer.
    let n = unsafe { library::a72_store(core.handle(), va, size, value, &mut answer, base, at, len) };
    (n, answer)
}

#[inline]
pub fn fetch(core: &mut Held, va: u64, base: u64, ram: &[u8]) -> (u64, Answer) {
    let mut answer = Answer::default();
    // Sound: a core, a slice with its own length, and a local answer.
    let n = unsafe { library::a72_fetch(core.handle(), va, &mut answer, base, ram.as_ptr(), ram.len()) };
    (n, answer)
}

/// `fields`: op1, CRn, CRm, op2, register.
#[inline]
pub fn system(core: &mut Held, fields: [u64; 5], base: u64, ram: &mut [u8]) -> (u64, Answer) {
    let [op1, crn, crm, op2, rt] = fields;
    let (mut answer, at, len) = (Answer::default(), ram.as_mut_ptr(), ram.len());
    // Sound: a core, a slice borrowed exclusively with its own length, and a local answer.
    let n = unsafe { library::a72_system(core.handle(), op1, crn, crm, op2, rt, &mut answer, base, at, len) };
    (n, answer)
}

pub fn census(core: &Held, first: u64, pages: u64, base: u64, ram: &[u8]) -> (u64, Counts) {
    let mut counts = [0; COUNTS];
    // Sound: a core, a slice with its own length, and a local array.
    let n = unsafe {
        library::a72_census(
            core.handle(),
            first,
            pages,
            &mut counts,
            base,
            ram.as_ptr(),
            ram.len(),
        )
    };
    (n, counts)
}

/// What is found or faults, zeros where nothing is written.
pub fn windows(core: &Held, list: &[u8], base: u64, ram: &[u8]) -> (u64, [u64; 3]) {
    let mut out = [0; 3];
    // Sound: a core, slices with their own lengths, and a local array.
    let n = unsafe {
        library::a72_windows(
            core.handle(),
            list.as_ptr(),
            list.len(),
            &mut out,
            base,
            ram.as_ptr(),
            ram.len(),
        )
    };
    (n, out)
}

/// What is found, zeros where nothing is written.
pub fn flip(core: &Held, va: u64, kind: u64, user: u64, base: u64, ram: &mut [u8]) -> (u64, [u64; 3]) {
    let (mut out, at, len) = ([0; 3], ram.as_mut_ptr(), ram.len());
    // Sound: a core, a slice borrowed exclusively with its own length, and a local array.
    let n = unsafe { library::a72_flip(core.handle(), va, kind, user, &mut out, base, at, len) };
    (n, out)
}

#[inline]
pub fn register(core: &mut Held, key: u64, value: u64) -> u64 {
    // Sound: a core.
    unsafe { library::a72_register(core.handle(), key, value) }
}

#[inline]
pub fn level(core: &mut Held, level: u64) -> u64 {
    // Sound: a core.
    unsafe { library::a72_level(core.handle(), level) }
}

#[inline]
pub fn mark(core: &mut Held, mark: u64) -> u64 {
    // Sound: a core.
    unsafe { library::a72_mark(core.handle(), mark) }
}

#[inline]
pub fn general(core: &mut Held, number: u64, value: u64) -> u64 {
    // Sound: a core.
    unsafe { library::a72_general(core.handle(), number, value) }
}

#[inline]
pub fn abort(core: &mut Held, exception: &[u64; 4]) -> u64 {
    // Sound: a core, and an array.
    unsafe { library::a72_abort(core.handle(), exception) }
}

/// The register's value; `None` where the library knows no such key.
pub fn get_register(core: &Held, key: u64) -> Option<u64> {
    let mut value = 0;
    // Sound: a core, and a local word.
    let n = unsafe { library::a72_get_register(core.handle(), key, &mut value) };
    (n == DONE).then_some(value)
}

/// Functions that read a word of a core.
macro_rules! readers {
    ($($name:ident $function:ident;)*) => {
        $(pub fn $name(core: &Held) -> u64 {
            // Sound: a core.
            unsafe { library::$function(core.handle()) }
        })*
    };
}

readers! {
    get_level a72_get_level;
    get_unprivileged a72_get_unprivileged;
    get_pstate a72_get_pstate;
    get_pc a72_get_pc;
    get_last_pa a72_get_last_pa;
    get_abort_pa a72_get_abort_pa;
    get_flushes a72_get_flushes;
    get_drops a72_get_drops;
    get_epoch a72_get_epoch;
    get_generation a72_get_generation;
    get_asid a72_get_asid;
}

/// Functions that read a word of a core by a number.
macro_rules! readers_by {
    ($($name:ident $function:ident;)*) => {
        $(pub fn $name(core: &Held, number: u64) -> u64 {
            // Sound: a core.
            unsafe { library::$function(core.handle(), number) }
        })*
    };
}

readers_by! {
    get_general a72_get_general;
    get_hits a72_get_hits;
    get_walks a72_get_walks;
}

pub fn word(core: &Held, place: usize) -> u64 {
    // Sound: a core.
    unsafe { library::a72_word(core.handle(), place) }
}

pub fn get_pending(core: &Held) -> [u64; 2] {
    let mut pending = [0; 2];
    // Sound: a core, and a local array.
    unsafe { library::a72_get_pending(core.handle(), &mut pending) };
    pending
}

pub fn get_entry(core: &Held, slot: u64) -> [u64; 7] {
    let mut entry = [0; 7];
    // Sound: a core, and a local array.
    unsafe { library::a72_get_entry(core.handle(), slot, &mut entry) };
    entry
}

pub fn get_hint(core: &Held, slot: u64) -> [u64; 2] {
    let mut hint = [0; 2];
    // Sound: a core, and a local array.
    unsafe { library::a72_get_hint(core.handle(), slot, &mut hint) };
    hint
}

pub fn get_fetch_hint(core: &Held) -> [u64; 4] {
    let mut hint = [0; 4];
    // Sound: a core, and a local array.
    unsafe { library::a72_get_fetch_hint(core.handle(), &mut hint) };
    hint
}

/// Whole frames, and what is left of the next.
macro_rules! frames {
    ($($name:ident $function:ident;)*) => {
        $(#[inline]
        pub fn $name(cycles: u64) -> (u64, u64) {
            let mut left = 0;
            // Sound: a local word.
            let whole = unsafe { library::$function(cycles, &mut left) };
            (whole, left)
        })*
    };
}

frames! {
    frames_48000 a72_frames_48000;
    frames_44100 a72_frames_44100;
}

pub fn set_pc(core: &mut Held, pc: u64) {
    // Sound: a core.
    unsafe { library::a72_set_pc(core.handle(), pc) }
}

pub fn set_pstate(core: &mut Held, spsr: u64) {
    // Sound: a core.
    unsafe { library::a72_set_pstate(core.handle(), spsr) }
}

pub fn take_pending(core: &mut Held) -> [u64; 2] {
    let mut pending = [0; 2];
    // Sound: a core, and a local array.
    unsafe { library::a72_take_pending(core.handle(), &mut pending) };
    pending
}

pub fn receive(core: &mut Held, kind: u64, value: u64) -> u64 {
    // Sound: a core.
    unsafe { library::a72_receive(core.handle(), kind, value) }
}

pub fn set_generation(core: &mut Held, generation: u64) -> u64 {
    // Sound: a core.
    unsafe { library::a72_set_generation(core.handle(), generation) }
}

#[cfg(test)]
mod tests {
    use super::*;
    use plain::number::NAMES_NOTHING;
    use plain::WORDS;

    #[test]
    fn every_word_is_saved() {
        let (mut zeroes, mut ones) = ([0; WORDS], [u64::MAX; WORDS]);
        let mut core = Held::new();
        core.save_to(&mut zeroes);
        core.restore(&ones);
        core = Held::new();
        core.save_to(&mut ones);
        assert!(zeroes == ones && zeroes == *core.clone().save());
        assert!((0..=WORDS).all(|at| word(&core, at) == ones.get(at).copied().unwrap_or(0)));
    }

    #[test]
    fn what_names_nothing_is_refused() {
        let mut core = Held::new();
        let before = core.save();
        assert_eq!(
            translate(&mut core, 0, 3, 0, &[]),
            (NAMES_NOTHING, Answer::default())
        );
        for (kind, user) in [(3, 0), (1, 2)] {
            assert_eq!(flip(&core, 0, kind, user, 0, &mut []), (NAMES_NOTHING, [0; 3]));
        }
        assert_eq!(mark(&mut core, 2), NAMES_NOTHING);
        assert_eq!(receive(&mut core, 0, 0), NAMES_NOTHING);
        assert_eq!(receive(&mut core, 3, 0x1_0000), NAMES_NOTHING);
        assert_eq!(set_generation(&mut core, 1 << 32), NAMES_NOTHING);
        // No exception; an immediate of more than 16 bits; a write neither 0 nor 1; a status of more than 8 bits.
        for exception in [
            [8, 0, 0, 0],
            [1, 0x1_0000, 0, 0],
            [2, 0x1_0000, 0, 0],
            [3, 0x1_0000, 0, 0],
            [4, u64::MAX, 0, 0],
            [5, 0, 2, 0],
            [5, 0, 0, 0x100],
            [6, 0, 0x100, 0],
        ] {
            assert_eq!(abort(&mut core, &exception), NAMES_NOTHING, "{exception:?}");
        }
        assert!(core.save() == before);
    }
}
