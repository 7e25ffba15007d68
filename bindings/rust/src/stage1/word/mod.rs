// Written by tools/plain from crates/word/src/lib.rt: change that.
//! Numbers as bit fields, and RAM as a lent window of bytes. Every crate above cites these definitions and laws.
pub mod bits;
pub mod ram;
