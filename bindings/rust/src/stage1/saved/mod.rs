// Written by tools/plain from crates/saved/src/lib.rt: change that.
//! A core as 5,213 words of 64 bits, in and out: what records, comparisons and callers keep of it. Any words are a
//! core.
mod parts;
pub mod place;
pub mod restore;
pub mod save;
