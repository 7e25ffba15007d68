//! The window of RAM that a call is lent.
use crate::stage1::flip::FlippedBit;

/// A window of RAM: the physical address of its first byte, and its bytes. All that lies outside it gives an external
/// abort. A window that passes 2^64 is refused ([`crate::Check::Window`]).
#[derive(Debug)]
pub struct Ram<'a> {
    /// The physical address of the first byte.
    pub base: u64,
    /// The bytes.
    pub bytes: &'a mut [u8],
}

impl<'a> Ram<'a> {
    /// The window that begins at `base`.
    pub fn new(base: u64, bytes: &'a mut [u8]) -> Ram<'a> {
        Ram { base, bytes }
    }

    /// Whether a byte lies inside.
    pub(crate) fn holds(&self, address: u64) -> bool {
        address.wrapping_sub(self.base) < self.bytes.len() as u64
    }

    /// The bytes at a physical address, if every one is inside.
    pub(crate) fn part(self, address: u64, size: u64) -> Option<&'a mut [u8]> {
        let at = usize::try_from(address.checked_sub(self.base)?).ok()?;
        let end = at.checked_add(usize::try_from(size).ok()?)?;
        self.bytes.get_mut(at..end)
    }

    /// Where eight bytes at a physical address lie, if every one is inside.
    fn at(&self, address: u64) -> Option<usize> {
        let at = usize::try_from(address.checked_sub(self.base)?).ok()?;
        (at.checked_add(8)? <= self.bytes.len()).then_some(at)
    }

    /// The little-endian word at a physical address; `None` where a byte of it is outside.
    pub fn read_u64(&self, address: u64) -> Option<u64> {
        let at = self.at(address)?;
        self.bytes[at..].first_chunk().map(|b| u64::from_le_bytes(*b))
    }

    /// Write a little-endian word at a physical address, as a table's descriptor is written; whether it was inside.
    /// The core's cache does not see it: the guest's TLBI does its part.
    pub fn write_u64(&mut self, address: u64, value: u64) -> bool {
        match self.at(address) {
            Some(at) => {
                self.bytes[at..at + 8].copy_from_slice(&value.to_le_bytes());
                true
            }
            None => false,
        }
    }

    /// Turn a bit the other way, as a cell of memory that went bad does; whether its word was inside, and the bit below
    /// 64. The core's cache does not see it, as with [`Self::write_u64`].
    pub fn flip(&mut self, cell: FlippedBit) -> bool {
        match self.read_u64(cell.pa) {
            Some(word) if cell.bit < 64 => self.write_u64(cell.pa, word ^ 1 << cell.bit),
            _ => false,
        }
    }
}
