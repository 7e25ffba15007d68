// Written by tools/plain from crates/quick/src/lib.rt: change that.
//! The calls on a core that is lent, each in the shape that costs least: the hint on scalars first, and what it does not
//! serve out of line. Each gives the call's number, and in `ans` its value and what it read.
mod at_once;
pub mod fetch;
pub mod hint;
pub(crate) mod instance;
pub mod load;
pub mod settings;
mod split;
pub mod store;
pub mod sys;
pub mod translation;
