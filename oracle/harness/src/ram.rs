//! The RAM window: a base address and bytes. `direct()` stays false.
mod twin;

use crate::op::Op;
use crate::state::Hash;
use pimu::aarch64::{Abort, Memory};
use std::ops::{Deref, DerefMut};
use twin::Twin;

/// The bytes of a window: a vector, or mapped twice so that a core can be lent them to be read alone.
pub enum Bytes {
    Plain(Vec<u8>),
    Twice(Twin),
}

impl Bytes {
    /// New ones are zero.
    pub fn resize(&mut self, len: usize) {
        match self {
            Bytes::Plain(v) => v.resize(len, 0),
            Bytes::Twice(t) => t.resize(len),
        }
    }

    /// Lent to an operation. Where that may not write them, a write through it ends the run if they are mapped twice.
    pub fn lent(&mut self, to_write: bool) -> *mut u8 {
        match self {
            Bytes::Twice(t) if !to_write => t.sealed(),
            _ => self.as_mut_ptr(),
        }
    }
}

impl Deref for Bytes {
    type Target = [u8];

    fn deref(&self) -> &[u8] {
        match self {
            Bytes::Plain(v) => v,
            Bytes::Twice(t) => t.bytes(),
        }
    }
}

impl DerefMut for Bytes {
    fn deref_mut(&mut self) -> &mut [u8] {
        match self {
            Bytes::Plain(v) => v,
            Bytes::Twice(t) => t.bytes_mut(),
        }
    }
}

#[derive(Default)]
pub struct Ram {
    pub base: u64,
    pub bytes: Bytes,
    /// How many writes were carried out.
    pub writes: u64,
    /// How many reads of eight bytes pimu asked for.
    pub reads: u64,
    /// The bytes of a list of windows, beside the window: those that the lines since the last list brought.
    pub list: Vec<u8>,
}

impl Default for Bytes {
    fn default() -> Bytes {
        Bytes::Plain(Vec::new())
    }
}

impl Clone for Ram {
    fn clone(&self) -> Ram {
        Ram {
            writes: self.writes,
            reads: self.reads,
            list: self.list.clone(),
            ..Ram::of(self.base, self.bytes.to_vec())
        }
    }
}

impl PartialEq for Ram {
    fn eq(&self, other: &Ram) -> bool {
        self.base == other.base && self.bytes[..] == other.bytes[..]
    }
}

impl Ram {
    pub fn of(base: u64, bytes: Vec<u8>) -> Ram {
        Ram {
            base,
            bytes: Bytes::Plain(bytes),
            writes: 0,
            reads: 0,
            list: Vec::new(),
        }
    }

    /// An operation was carried out or refused: a list of windows is taken then.
    pub fn taken(&mut self, op: &Op) {
        if *op == Op::Windows {
            self.list.clear();
        }
    }

    /// No bytes, mapped twice as they come.
    pub fn sealable() -> Ram {
        Ram {
            bytes: Bytes::Twice(Twin::new(0)),
            ..Ram::default()
        }
    }

    /// Where `size` bytes at `addr` lie, if every one is inside; no sum wraps.
    fn at(&self, addr: u64, size: u32) -> Option<usize> {
        let end = u128::from(addr) + u128::from(size);
        (addr >= self.base && end <= self.end()).then(|| (addr - self.base) as usize)
    }

    /// Base plus length, without wrap.
    pub fn end(&self) -> u128 {
        u128::from(self.base) + self.bytes.len() as u128
    }

    pub fn get(&self, addr: u64, size: u32) -> Option<u64> {
        let at = self.at(addr, size)?;
        let mut b = [0; 8];
        b[..size as usize].copy_from_slice(&self.bytes[at..at + size as usize]);
        Some(u64::from_le_bytes(b))
    }

    pub fn put(&mut self, addr: u64, size: u32, v: u64) -> bool {
        let Some(at) = self.at(addr, size) else {
            return false;
        };
        self.bytes[at..at + size as usize].copy_from_slice(&v.to_le_bytes()[..size as usize]);
        self.writes += 1;
        true
    }

    /// Another agent's write of eight bytes; those outside the window are dropped.
    pub fn poke(&mut self, addr: u64, v: u64) {
        for (i, b) in v.to_le_bytes().into_iter().enumerate() {
            if let Some(a) = addr.checked_add(i as u64) {
                self.put(a, 1, u64::from(b));
            }
        }
    }

    /// Of the base, the length, and the digests of four lanes of the bytes as little-endian words: each lane has every
    /// fourth word, and past the last byte all are zero.
    pub fn digest(&self) -> u64 {
        let mut lanes = [(); 4].map(|()| Hash::new());
        for group in self.bytes.chunks(32) {
            let mut padded = [0; 32];
            padded[..group.len()].copy_from_slice(group);
            for (lane, word) in lanes.iter_mut().zip(padded.chunks_exact(8)) {
                lane.word(u64::from_le_bytes(word.try_into().expect("eight bytes")));
            }
        }
        let head = [self.base, self.bytes.len() as u64];
        Hash::of(head.into_iter().chain(lanes.map(|lane| lane.0)))
    }
}

impl Memory for Ram {
    fn read(&mut self, addr: u64, size: u32) -> Result<u64, Abort> {
        self.reads += u64::from(size == 8);
        self.get(addr, size).ok_or(Abort { addr, write: false })
    }

    fn write(&mut self, addr: u64, size: u32, value: u64) -> Result<(), Abort> {
        self.put(addr, size, value)
            .then_some(())
            .ok_or(Abort { addr, write: true })
    }
}

/// RAM that is looked at alone: a write through it fails.
pub struct View<'a>(pub &'a Ram);

impl Memory for View<'_> {
    fn read(&mut self, addr: u64, size: u32) -> Result<u64, Abort> {
        self.0.get(addr, size).ok_or(Abort { addr, write: false })
    }

    fn write(&mut self, addr: u64, _: u32, _: u64) -> Result<(), Abort> {
        Err(Abort { addr, write: true })
    }
}
