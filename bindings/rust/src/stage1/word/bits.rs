// Written by tools/plain from crates/word/src/bits.rt: change that.
//! Bit fields whose place is a variable, and small values as words. A place is taken modulo 64, as the machine's shifts
//! take it, so that each function is total.

/// `x` with its low `n` bits clear.
#[inline(always)]
pub fn align_down(x: u64, n: u64) -> u64 {
    let n = n % 64;
    x >> n << n
}

/// The low `n` bits of `x`.
#[inline(always)]
pub fn low_bits(x: u64, n: u64) -> u64 {
    x - align_down(x, n)
}

/// One more, modulo 2^64: how every counter moves.
#[inline(always)]
pub fn more(n: u64) -> u64 {
    n.wrapping_add(1)
}

/// A flag as a word.
#[inline(always)]
pub fn flag_word(on: bool) -> u64 {
    u64::from(on)
}

/// A byte as a word.
#[inline(always)]
pub fn wide(x: u8) -> u64 {
    u64::from(x)
}
