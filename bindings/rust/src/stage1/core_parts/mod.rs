// Written by tools/plain from crates/core_parts/src/lib.rt: change that.
//! The parts of a core by name, for a caller that sees no struct: what it reads, and what it may set beside the calls.
pub mod put;
pub mod read;
