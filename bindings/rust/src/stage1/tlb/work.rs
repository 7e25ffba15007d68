// Written by tools/plain from crates/tlb/src/work.rt: change that.
//! What the translations of an operation did, beside their answers. It goes down by reference to where it is done.

/// The descriptors that walks read. A count wraps at 2^64.
#[derive(Clone, Copy, Debug, PartialEq, Eq)]
pub struct Work {
    /// How many descriptors the walks read so far, those outside RAM too.
    pub reads: u64,
}

impl Work {
    /// Of an operation that begins.
    #[inline]
    pub fn none() -> Self {
        Work { reads: 0 }
    }

    /// A walk that read so many descriptors.
    #[inline]
    pub fn add_reads(&mut self, reads: u8) {
        self.reads = self.reads.wrapping_add(reads as u64);
    }
}
