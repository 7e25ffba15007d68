//! The core of `bindings/rust` over the proved static library `liba72abi.a`, by the functions of `include/a72.h`: the
//! same types and methods, but for `walk`, `fresh_answer`, `fresh_answer_with`, and `Memory` with what takes one.
//! What is at hand without RAM is always `None`, [`Cluster::core`] gives a copy, and neither a [`Core`] nor a [`Cluster`] is
//! `Sync`. What runs here is the code that the Rattle compiler made.
//!
//! # Example
//!
//! ```
//! use a72::{registers, Access, Core, Level, Ram, Stop};
//!
//! let mut bytes = vec![0; 0x10_0000];
//! let ram = Ram::new(0x4000_0000, &mut bytes);
//! let mut core = Core::new(); // out of reset: EL3, stage 1 off
//! assert_eq!(core.translate(&ram, 0x4000_1234, Access::Write)?, 0x4000_1234);
//! core.write_register(registers::TTBR0_EL1, 0x4000_1000)?;
//! core.set_level(Level::EL1)?;
//! # Ok::<(), Stop>(())
//! ```
#![deny(unsafe_code)]
#![warn(missing_docs)]
mod cluster;
mod core;
mod edit;
mod flip;
mod frames;
// The oracle has `held` and `library` too, and uses all of them.
mod held;
mod held_cluster;
#[allow(dead_code)]
mod library;
mod raw;
mod view;
mod windows;
mod words;

pub use crate::cluster::Cluster;
pub use crate::core::Core;
pub use crate::edit::Edit;
pub use crate::frames::Rate;
pub use plain::{count, number, place, registers};
pub use plain::{
    Access, Broadcast, Census, Check, Counters, Entry, Exception, Fault, FetchHint, Flags, FlippedBit,
    Frames, Hint, Level, LevelCounters, Malformed, PageFault, Ram, Report, Rights, Status, Stop,
    SystemOperation, View, Width, WindowList, WindowsError, MOST_PAGES, MOST_WINDOWS, MOST_WINDOW_PAGES,
    WORDS,
};
