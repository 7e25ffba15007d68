// Written by tools/plain from crates/cpu/src/bytes.rt: change that.
//! Bytes moved between a value and RAM, once it is known where they lie.

use crate::stage1::cpu::place;
use crate::stage1::cpu::place::{Outside, Pages, Place};
use crate::stage1::word::ram::Width;
use crate::stage1::word::{bits, ram};

/// The value of n bytes over two pages, the lowest first, where all lie in RAM.
#[inline]
fn split_value(base: u64, ram: &[u8], p: Pages, n: u64) -> u64 {
    let mut v: u64 = 0;
    let mut i: u64 = n;
    while 0 < i {
        i -= 1;
        let pa = p.byte_at(i);
        v = v * 256 + bits::wide(ram[(pa - base) as usize]);
    }
    v
}

#[inline]
fn load_split(base: u64, ram: &[u8], p: Pages, n: u64) -> Result<u64, Outside> {
    place::first_outside(base, ram.len() as u64, p, n)?;
    Ok(split_value(base, ram, p, n))
}

/// A load from a place; an error is its lowest byte outside RAM.
#[inline]
pub fn load(base: u64, ram: &[u8], place: Place, width: Width) -> Result<u64, Outside> {
    match place {
        Place::Whole(pa) => ram::read(base, ram, width, pa).ok_or(Outside { index: 0, pa }),
        Place::Split(p) => load_split(base, ram, p, width.bytes()),
    }
}

/// Byte by byte, up to the first outside: those before it are written.
#[inline]
fn store_split(base: u64, ram: &mut [u8], p: Pages, n: u64, value: u64) -> Result<(), Outside> {
    let mut v = value;
    let mut i: u64 = 0;
    while i < n {
        let pa = p.byte_at(i);
        if !ram::write(base, ram, Width::Byte, pa, v) {
            return Err(Outside { index: i, pa });
        }
        v = v / 256;
        i += 1;
    }
    Ok(())
}

/// A store of a value's low bytes to a place; an error is its lowest byte outside RAM, before which a split store has
/// written.
#[inline]
pub fn store(base: u64, ram: &mut [u8], place: Place, width: Width, value: u64) -> Result<(), Outside> {
    match place {
        Place::Whole(pa) => ram::write(base, ram, width, pa, value)
            .then_some(())
            .ok_or(Outside { index: 0, pa }),
        Place::Split(p) => store_split(base, ram, p, width.bytes(), value),
    }
}

/// The instruction at the physical address `pa`: four bytes, or nothing where one of them lies outside RAM.
#[inline]
pub fn insn_at(base: u64, ram: &[u8], pa: u64) -> Option<u32> {
    if !ram::inside(base, ram.len() as u64, 4, pa) {
        return None;
    }
    let at = (pa - base) as usize;
    Some(u32::from_le_bytes([
        ram[at],
        ram[at + 1],
        ram[at + 2],
        ram[at + 3],
    ]))
}
