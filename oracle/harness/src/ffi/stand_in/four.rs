//! Four of the model behind the functions of a cluster: the words of each where the library has its cores.
use super::super::four::CHECK_CORE;
use super::super::{boxed, decode, encode_answer, state_of, CORE_SIZE, HANDLE_SIZE};
use super::{words, Handle};
use crate::census::Counts;
use crate::cluster::{place, Cluster, CORES};
use crate::library::ClusterHandle;
use crate::model::{DocCore, DocFour};
use crate::number::{DONE, NAMES_NOTHING, PAGE_FAULTS};
use crate::op::{Ans, Line, Op};
use crate::place::State;
use crate::{refusal, Core, Ram};
use std::ffi::c_void;
use std::slice::{from_raw_parts, from_raw_parts_mut};

/// The words of core `i`.
///
/// # Safety
/// `at` is as much memory as four cores take, and nobody else uses it.
unsafe fn words_at<'a>(at: *mut c_void, i: usize) -> &'a mut State {
    &mut *at.cast::<u8>().add(i * (CORE_SIZE - HANDLE_SIZE)).cast()
}

/// The model's four with what the words hold.
///
/// # Safety
/// `cluster` is a cluster that [`a72_cluster_init_at`] made, and nobody else uses it.
unsafe fn held(cluster: *mut ClusterHandle, n: u64) -> DocFour {
    let mut four = DocFour::with_mistake(None);
    for i in 0..CORES {
        four.turn(i as u64);
        four.load(&state_of(words_at((*cluster).at, i)));
    }
    four.turn(n);
    four
}

/// An operation on the four, whose words are what they hold then.
///
/// # Safety
/// As above.
unsafe fn on(cluster: *mut ClusterHandle, n: u64, op: &Op, window: &mut Ram) -> (Ans, u64) {
    let mut four = held(cluster, n);
    let answer = four.step(op, window);
    for i in 0..CORES {
        *words_at((*cluster).at, i) = *boxed(&four.nth(i));
    }
    (answer, four.reads())
}

/// # Safety
/// As of [`words_at`].
pub unsafe fn a72_cluster_init_at(at: *mut c_void) {
    for i in 0..CORES {
        *words_at(at, i) = *boxed(&DocCore::new().state());
    }
}

/// # Safety
/// As of [`held`], and `out` is another core.
pub unsafe fn a72_cluster_get(cluster: *mut ClusterHandle, n: u64, out: *mut Handle) -> u64 {
    let Some(i) = place(n) else { return CHECK_CORE };
    *words(out) = *words_at((*cluster).at, i);
    DONE
}

/// # Safety
/// As above.
pub unsafe fn a72_cluster_put(cluster: *mut ClusterHandle, n: u64, from: *mut Handle) -> u64 {
    let Some(i) = place(n) else { return CHECK_CORE };
    *words_at((*cluster).at, i) = *words(from);
    DONE
}

/// # Safety
/// As of [`held`]; each pointer is an array, or the start of as many bytes as the length after it says, and nobody else uses
/// them.
pub unsafe fn a72_cluster_step(
    op: *const [u64; 8],
    cluster: *mut ClusterHandle,
    n: u64,
    base: u64,
    ram: *mut u8,
    ram_bytes: usize,
    ans: *mut [u64; 5],
) -> u64 {
    if place(n).is_none() {
        return CHECK_CORE;
    }
    let bytes = from_raw_parts_mut(ram, ram_bytes);
    let op = match decode(&*op) {
        Some(Line::Op(op)) if op.is_step() => op,
        _ => return NAMES_NOTHING,
    };
    let mut window = Ram::of(base, bytes.to_vec());
    let level = held(cluster, n).state().level;
    let (answer, reads) = match op {
        // What a list comes to is the other function's, its refusals too.
        Op::Windows if refusal(&Op::Census(0, 0), level, &window, |_| true).is_none() => {
            on(cluster, n, &Op::Census(0, 0), &mut window)
        }
        _ => on(cluster, n, &op, &mut window),
    };
    if window.writes != 0 {
        bytes.copy_from_slice(&window.bytes);
    }
    let [code, a, b, c] = encode_answer(match (&op, &answer) {
        (_, n @ Ans::Number(_)) => n,
        (op, _) if op.looks() => &Ans::Ok,
        (_, other) => other,
    });
    *ans = [code, a, b, c, reads];
    DONE
}

/// # Safety
/// As above.
#[allow(clippy::too_many_arguments)]
pub unsafe fn a72_cluster_census(
    cluster: *mut ClusterHandle,
    n: u64,
    first: u64,
    pages: u64,
    base: u64,
    ram: *const u8,
    ram_bytes: usize,
    counts: *mut Counts,
) -> u64 {
    let mut window = Ram::of(base, from_raw_parts(ram, ram_bytes).to_vec());
    match on(cluster, n, &Op::Census(first, pages), &mut window).0 {
        Ans::Counts(all) => {
            *counts = *all;
            DONE
        }
        Ans::Number(n) => n.into(),
        other => unreachable!("a census gives no {other}"),
    }
}

/// # Safety
/// As above.
#[allow(clippy::too_many_arguments)]
pub unsafe fn a72_cluster_windows(
    cluster: *mut ClusterHandle,
    n: u64,
    list: *const u8,
    list_len: usize,
    base: u64,
    ram: *const u8,
    ram_bytes: usize,
    out: *mut [u64; 3],
) -> u64 {
    let mut window = Ram::of(base, from_raw_parts(ram, ram_bytes).to_vec());
    window.list = from_raw_parts(list, list_len).to_vec();
    match on(cluster, n, &Op::Windows, &mut window).0 {
        Ans::Number(n) => return n.into(),
        Ans::Page(window, page, status) => {
            *out = [window, page, status.into()];
            return PAGE_FAULTS;
        }
        Ans::Pair(first, second) => *out = [1, first, second],
        Ans::None => *out = [0; 3],
        other => unreachable!("a list of windows gives no {other}"),
    }
    DONE
}

/// # Safety
/// As above.
#[allow(clippy::too_many_arguments)]
pub unsafe fn a72_cluster_flip(
    cluster: *mut ClusterHandle,
    n: u64,
    va: u64,
    kind: u64,
    user: u64,
    base: u64,
    ram: *mut u8,
    ram_bytes: usize,
    out: *mut [u64; 3],
) -> u64 {
    if place(n).is_none() {
        return CHECK_CORE;
    }
    let mut window = Ram::of(base, from_raw_parts(ram, ram_bytes).to_vec());
    let op = match decode(&[15, kind, user, va, 0, 0, 0, 0]) {
        Some(Line::Op(op)) => op,
        _ => return NAMES_NOTHING,
    };
    *out = match on(cluster, n, &op, &mut window).0 {
        Ans::Number(n) => return n.into(),
        Ans::Bit(pa, bit) => [1, pa, bit.into()],
        Ans::None => [0; 3],
        other => unreachable!("a flipped bit gives no {other}"),
    };
    DONE
}
