//! The numbers that the library's functions give. With one from 1 to 66 nothing is written, but with [`PAGE_FAULTS`]
//! which page it is.

/// The operation is done.
pub const DONE: u64 = 0;
/// Bytes are no list of windows ([`crate::Malformed`]).
pub const CHECK_LIST: u64 = 9;
/// A page of a list of windows faults.
pub const PAGE_FAULTS: u64 = 10;
/// The last number of a check; the first is 1, and 1 to 10 are there.
pub const LAST_CHECK: u64 = 63;
/// A word names nothing: an operation's code, a kind of access, a mark, an exception or a part of one.
pub const NAMES_NOTHING: u64 = 64;
/// The operation is Undefined.
pub const UNDEFINED: u64 = 65;
/// The operation is Unimplemented.
pub const UNIMPLEMENTED: u64 = 66;
/// A fault: this plus its status, which has eight bits.
pub const FAULT: u64 = 256;

/// The status of a fault.
pub fn status(number: u64) -> Option<u8> {
    u8::try_from(number.checked_sub(FAULT)?).ok()
}
