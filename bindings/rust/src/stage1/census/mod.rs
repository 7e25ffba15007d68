// Written by tools/plain from crates/census/src/lib.rt: change that.
//! The page census: how many pages of a range end at each status, at each permission byte, and flat. It sees the tables
//! and no cache.
pub mod count;
