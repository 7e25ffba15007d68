//! Bit fields, by division and remainder.

/// 2^64.
pub const WORD: u128 = 1 << 64;

pub fn bit(v: u64, n: u32) -> bool {
    (v / (1u64 << n)) % 2 == 1
}

/// Bits `lo` to `hi` of `v`.
pub fn bits(v: u64, hi: u32, lo: u32) -> u64 {
    ((u128::from(v) >> lo) % (1u128 << (hi - lo + 1))) as u64
}
