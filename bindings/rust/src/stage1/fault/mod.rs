// Written by tools/plain from crates/fault/src/lib.rt: change that.
//! The status of a fault, as the walk, the permission check or memory gives it. A second stage will add to it.

/// A fault; `fsc` is its `DFSC` or `IFSC`.
#[derive(Clone, Copy, PartialEq, Eq, Debug)]
pub struct Fault {
    pub fsc: u8,
}

/// A fault of stage 1.
#[inline(always)]
pub fn first(fsc: u8) -> Fault {
    Fault { fsc }
}
