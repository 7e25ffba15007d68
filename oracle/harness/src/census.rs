//! The counts of a page census.
pub use crate::count::{Counts, COUNTS, FLAT, RIGHTS, STATUS};
use crate::state::Hash;
use std::fmt::{self, Display, Formatter};

/// How a page ends with nothing cached.
#[derive(Clone, Copy, Debug, PartialEq, Eq)]
pub enum End {
    /// Stage 1 is off.
    Flat,
    /// The status of the fault that its walk ends in.
    Status(u8),
    /// The permission byte of the leaf that its walk ends in.
    Rights(u8),
}

impl End {
    /// Its place among the counts.
    pub fn place(self) -> usize {
        match self {
            End::Flat => FLAT,
            End::Status(s) => STATUS + usize::from(s),
            End::Rights(p) => RIGHTS + usize::from(p),
        }
    }

    /// The end that is counted at a place.
    fn at(place: usize) -> End {
        match place {
            FLAT => End::Flat,
            p if p < RIGHTS => End::Status(p as u8),
            p => End::Rights((p - RIGHTS) as u8),
        }
    }
}

impl Display for End {
    fn fmt(&self, f: &mut Formatter) -> fmt::Result {
        match self {
            End::Flat => write!(f, "flat"),
            End::Status(s) => write!(f, "status {s:02x}"),
            End::Rights(p) => write!(f, "permissions {p:02x}"),
        }
    }
}

/// Ends with the number of pages of each, where there are some.
pub fn ends(counts: &Counts) -> impl Iterator<Item = (End, u64)> + '_ {
    let some = counts.iter().enumerate().filter(|(_, n)| **n != 0);
    some.map(|(place, n)| (End::at(place), *n))
}

/// How many places are not 0, and the digest of them all in order: what an answer's text and words hold.
pub fn summary(counts: &Counts) -> (u64, u64) {
    (ends(counts).count() as u64, Hash::of(*counts))
}
