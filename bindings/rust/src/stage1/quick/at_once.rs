// Written by tools/plain from crates/quick/src/at_once.rt: change that.
//! The bytes of an access over two pages, both parts of which lie in RAM by one test.

use crate::stage1::cpu::place::Pages;
use crate::stage1::word::{bits, ram};

/// Whether both parts of up to eight bytes lie in RAM: a window that ends at the last address is left to the bytes.
#[inline]
fn both_inside(base: u64, len: u64, p: Pages, n: u64) -> bool {
    if u64::MAX - len < base || n < p.in_page || 8 < n {
        return false;
    }
    ram::inside(base, len, p.in_page, p.pa) && ram::inside(base, len, n - p.in_page, p.pa2)
}

/// The value of a split access whose bytes lie in RAM.
#[inline]
fn joined(base: u64, ram: &[u8], p: Pages, n: u64) -> u64 {
    let mut v: u64 = 0;
    let mut i: u64 = n;
    while 0 < i {
        i -= 1;
        let pa = p.byte_at(i);
        v = v * 256 + bits::wide(ram[(pa - base) as usize]);
    }
    v
}

/// The value of a split access.
#[inline]
pub(crate) fn read_both(base: u64, ram: &[u8], p: Pages, n: u64) -> Option<u64> {
    if both_inside(base, ram.len() as u64, p, n) {
        Some(joined(base, ram, p, n))
    } else {
        None
    }
}

/// A split store, and whether it was made. The byte writer is lent each part by itself: the first page's bytes, and then
/// the others, which are those of the value above them.
#[inline]
pub(crate) fn write_both(base: u64, ram: &mut [u8], p: Pages, n: u64, value: u64) -> bool {
    if both_inside(base, ram.len() as u64, p, n) {
        let here = p.in_page;
        let rest = value >> (here * 4) >> (here * 4);
        ram::write_bytes(base, ram, here, p.pa, value);
        ram::write_bytes(base, ram, n - here, p.pa2, rest);
        true
    } else {
        false
    }
}

/// The two low bytes of a value, one at the end of a page and one at the start of another, and whether it was made.
#[inline]
pub(crate) fn write_pair(base: u64, ram: &mut [u8], pa: u64, pa2: u64, value: u64) -> bool {
    let p = Pages { in_page: 1, pa, pa2 };
    if both_inside(base, ram.len() as u64, p, 2) {
        ram::write_bytes(base, ram, 1, pa, value);
        ram::write_bytes(base, ram, 1, pa2, value / 256);
        true
    } else {
        false
    }
}
