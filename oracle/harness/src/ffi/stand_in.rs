//! Without the feature `rattle` the model stands behind these functions, so that the boundary itself is tested. Where the
//! library has a core there the model's words stand, in the same memory.
mod four;

use super::{boxed, decode, encode_answer, state_of, RETIRED};
use crate::census::Counts;
pub use crate::library::{ClusterHandle, Handle};
pub use four::*;
use crate::model::DocCore;
use crate::number::{DONE, NAMES_NOTHING, PAGE_FAULTS};
use crate::op::{Ans, Line, Op};
use crate::{place, refusal, Core, Ram};
use std::ffi::c_void;
use std::slice::{from_raw_parts, from_raw_parts_mut};

const _: () = assert!(size_of::<place::State>() <= super::held::CORE_SIZE - super::held::HANDLE_SIZE);

/// The words in a core's memory.
///
/// # Safety
/// `core` is a core that [`a72_init_at`] made, and nobody else uses it.
unsafe fn words<'a>(core: *mut Handle) -> &'a mut place::State {
    &mut *(*core).at.cast()
}

/// The model with what the words hold.
fn held(state: &place::State) -> DocCore {
    let mut core = DocCore::new();
    core.load(&state_of(state));
    core
}

/// # Safety
/// `at` is as much memory as a core takes, and nobody else uses it.
pub unsafe fn a72_init_at(at: *mut c_void) {
    *at.cast() = *boxed(&DocCore::new().state());
}

/// # Safety
/// As of [`words`]; `saved` is an array that nobody else uses.
pub unsafe fn a72_save(core: *mut Handle, saved: *mut place::State) {
    *saved = *words(core);
}

/// # Safety
/// As above.
pub unsafe fn a72_restore(core: *mut Handle, saved: *const place::State) {
    let state = words(core);
    *state = *saved;
    state[RETIRED].fill(0);
    state[place::LEVEL] = state[place::LEVEL].min(255);
}

/// # Safety
/// As of [`words`]; each pointer is an array, or the start of as many bytes as the length after it says, and nobody else uses
/// them.
pub unsafe fn a72_step(
    op: *const [u64; 8],
    core: *mut Handle,
    base: u64,
    ram: *mut u8,
    ram_bytes: usize,
    ans: *mut [u64; 5],
) -> u64 {
    let state = words(core);
    let bytes = from_raw_parts_mut(ram, ram_bytes);
    let op = match decode(&*op) {
        Some(Line::Op(op)) if op.is_step() => op,
        _ => return NAMES_NOTHING,
    };
    let mut core = held(state);
    let mut window = Ram::of(base, bytes.to_vec());
    let answer = match op {
        // What a list comes to is the other function's, its refusals too.
        Op::Windows if refusal(&Op::Census(0, 0), core.regs.level, &window, |_| true).is_none() => Ans::Ok,
        Op::Flip(..) => match core.step(&op, &mut window) {
            n @ Ans::Number(_) => n,
            _ => Ans::Ok,
        },
        _ => core.step(&op, &mut window),
    };
    if window.writes != 0 {
        bytes.copy_from_slice(&window.bytes);
    }
    *state = *boxed(&core.state());
    // The counts of a census are the other function's.
    let [code, a, b, c] = encode_answer(match &answer {
        Ans::Counts(_) => &Ans::Ok,
        other => other,
    });
    *ans = [code, a, b, c, core.reads()];
    DONE
}

/// # Safety
/// As above.
pub unsafe fn a72_census(
    core: *mut Handle,
    first: u64,
    pages: u64,
    counts: *mut Counts,
    base: u64,
    ram: *const u8,
    ram_bytes: usize,
) -> u64 {
    let mut window = Ram::of(base, from_raw_parts(ram, ram_bytes).to_vec());
    match held(words(core)).step(&Op::Census(first, pages), &mut window) {
        Ans::Counts(all) => {
            *counts = *all;
            DONE
        }
        Ans::Number(n) => n.into(),
        other => unreachable!("a census gives no {other}"),
    }
}

/// # Safety
/// As above.
pub unsafe fn a72_windows(
    core: *mut Handle,
    list: *const u8,
    list_len: usize,
    out: *mut [u64; 3],
    base: u64,
    ram: *const u8,
    ram_bytes: usize,
) -> u64 {
    let mut window = Ram::of(base, from_raw_parts(ram, ram_bytes).to_vec());
    window.list = from_raw_parts(list, list_len).to_vec();
    match held(words(core)).step(&Op::Windows, &mut window) {
        Ans::Number(n) => return n.into(),
        Ans::Page(window, page, status) => {
            *out = [window, page, status.into()];
            return PAGE_FAULTS;
        }
        Ans::Pair(first, second) => *out = [1, first, second],
        Ans::None => *out = [0; 3],
        other => unreachable!("a list of windows gives no {other}"),
    }
    DONE
}

/// # Safety
/// As above.
#[allow(clippy::too_many_arguments)]
pub unsafe fn a72_flip(
    core: *mut Handle,
    va: u64,
    kind: u64,
    user: u64,
    out: *mut [u64; 3],
    base: u64,
    ram: *mut u8,
    ram_bytes: usize,
) -> u64 {
    let mut window = Ram::of(base, from_raw_parts(ram, ram_bytes).to_vec());
    let op = match decode(&[15, kind, user, va, 0, 0, 0, 0]) {
        Some(Line::Op(op)) => op,
        _ => return NAMES_NOTHING,
    };
    *out = match held(words(core)).step(&op, &mut window) {
        Ans::Number(n) => return n.into(),
        Ans::Bit(pa, bit) => [1, pa, bit.into()],
        Ans::None => [0; 3],
        other => unreachable!("a flipped bit gives no {other}"),
    };
    DONE
}
