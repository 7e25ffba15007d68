//! Where each count of a census stands, and its most pages. `include/a72.h` has the same, and `tests/places.sh`
//! compares the two.

/// How many counts a census gives.
pub const COUNTS: usize = 129;
/// The pages whose walk faults, by status: 64 counts.
pub const STATUS: usize = 0;
/// The pages that are mapped, by permission byte: 64 counts.
pub const RIGHTS: usize = 64;
/// The pages with stage 1 off, below 2^44.
pub const FLAT: usize = 128;

/// The most pages that a census takes.
pub const MOST_PAGES: u64 = 65536;

/// The counts of a census.
pub type Counts = [u64; COUNTS];
