// Written by tools/plain from crates/call_words/src/lib.rt: change that.
//! The words of the boundary: the call that words name, the number and words of a reply, and one walk.
pub mod op;
pub mod reply;
