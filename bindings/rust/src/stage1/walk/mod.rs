// Written by tools/plain from crates/walk/src/lib.rt: change that.
//! Stage 1 of VMSAv8-64: the address leaves and the translation table walk. Nothing here keeps state.
pub mod descriptor;
pub mod flat;
pub mod fresh;
pub mod fsc;
pub mod level;
pub mod range;
pub mod regime;
pub mod rights;
pub mod table;
