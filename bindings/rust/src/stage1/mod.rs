// Written by tools/plain from the crates of these names: change those.
//! The core as the proved crates of these names hold it: their text, without contracts. [`crate::Core`] is what is meant to be called.

// What contracts alone name: an argument, a loop, an import.
#![allow(unused_variables, unused_labels, unused_imports)]
// Forms that the proofs take as they stand; ranges of bits, which rustdoc takes for links.
#![allow(
    clippy::assign_op_pattern,
    clippy::collapsible_if,
    clippy::if_same_then_else,
    clippy::manual_contains
)]
#![allow(
    clippy::manual_is_multiple_of,
    clippy::manual_map,
    clippy::needless_range_loop
)]
#![allow(
    clippy::new_without_default,
    clippy::too_many_arguments,
    rustdoc::broken_intra_doc_links
)]

pub mod call_words;
pub mod census;
#[cfg(test)]
pub mod cluster;
pub mod core_parts;
pub mod cpu;
pub mod exception;
pub mod fault;
pub mod flip;
pub mod frames;
pub mod quick;
pub mod saved;
pub mod sysreg;
pub mod system;
pub mod tlb;
pub mod walk;
pub mod windows;
pub mod word;
