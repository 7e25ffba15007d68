//! Stage 1 address translation of the Cortex-A72: the VMSAv8-64 table walk, its cache (TLB), TLBI, AT, loads, stores
//! and fetches over one or two pages, exception entry, as pimu does them; a census of how pages are mapped, which
//! windows of pages have one in common, and the bit of RAM whose flip changes a translation.
//!
//! Its module `stage1`, which is for no caller, is the text of crates in Rattle, Rust with contracts, in which every
//! function is proved to meet its contract; the contracts are taken away. The rest of this crate gives it types and
//! names. What rustc makes of it is run beside pimu's own Rust, operation by operation, and so, on the same lists, is
//! the library that was proved and compiled as one: that is tested, and not proved. No unsafe code, no dependency, no
//! allocation but for a core's words in boxes (feature `alloc`).
//!
//! [`embedding`] shows an emulator's use: devices, two cores, faults that the guest takes.
//!
//! A [`Core`] is its state. It owns no RAM: each call is lent a window of RAM, a base address and bytes ([`Ram`]).
//! An answer is a [`Result`] whose error is a [`Stop`]: the call was refused, or the operation is undefined or
//! unimplemented, and nothing was changed; or it ended in a fault.
//!
//! # Example
//!
//! Two pages are mapped by three levels of tables; the second may only be read.
//!
//! ```
//! use a72::{registers, Access, Core, Ram, Rights, Stop, Width};
//!
//! // RAM of 1 MiB at 0x4000_0000, with tables in its first pages.
//! let mut bytes = vec![0; 0x10_0000];
//! let mut ram = Ram::new(0x4000_0000, &mut bytes);
//! ram.write_u64(0x4000_1000, 0x4000_2000 | 3); // level 1, entry 0: a table
//! ram.write_u64(0x4000_2000, 0x4000_3000 | 3); // level 2, entry 0: a table
//! ram.write_u64(0x4000_3008, 0x4000_8000 | 0x403); // level 3, entry 1: a page, accessed
//! ram.write_u64(0x4000_3010, 0x4000_9000 | 0x483); // level 3, entry 2: a page to be read only
//!
//! // Out of reset the core is at EL3 and stage 1 is off.
//! let mut core = Core::new();
//! core.write_register(registers::TCR_EL1, 25)?; // 39 bits of address, pages of 4 KiB
//! core.write_register(registers::TTBR0_EL1, 0x4000_1000)?;
//! core.write_register(registers::SCTLR_EL1, 1)?; // stage 1 on
//! core.set_level(1)?;
//!
//! assert_eq!(core.translate(&ram, 0x1234, Access::Write)?, 0x4000_8234);
//! assert_eq!(core.report().reads, 3); // the descriptors of a walk of three levels
//! core.store(&mut ram, 0x1FFC, Width::Word, 0xDEAD_BEEF)?;
//! assert_eq!(ram.read_u64(0x4000_8FF8), Some(0xDEAD_BEEF_0000_0000));
//!
//! // A load across the end of the page translates both.
//! assert_eq!(core.load(&ram, 0x1FFE, Width::Word)?, 0xDEAD);
//!
//! // The second page may not be written: a permission fault of level 3.
//! let Err(Stop::Fault(fault)) = core.store(&mut ram, 0x2000, Width::Byte, 1) else {
//!     panic!("the page is read only");
//! };
//! assert_eq!((fault.address, fault.status.0), (0x2000, 0x0F));
//!
//! // How the first sixteen pages are mapped: two are, one of them for EL1 to write.
//! let census = core.census(&ram, 0, 16)?;
//! assert_eq!((census.total(), census.mapped(), census.faults()), (16, 2, 14));
//! assert_eq!(census.allowing(Rights::PRIVILEGED_WRITE), 1);
//!
//! // The cache's counters, by the level of the access.
//! let el1 = core.counters().levels[1];
//! assert_eq!((el1.walks, el1.hits), (2, 2));
//!
//! // The guest takes it: the syndrome is in ESR_EL1, the address in FAR_EL1.
//! core.take(&fault.exception())?;
//! assert_eq!(core.register(registers::FAR_EL1), Some(0x2000));
//! assert_eq!(core.register(registers::ESR_EL1), Some(0x25 << 26 | 1 << 25 | 1 << 6 | 0x0F));
//! # Ok::<(), Stop>(())
//! ```
#![no_std]
#![forbid(unsafe_code)]
#![warn(missing_docs)]

#[cfg(feature = "alloc")]
extern crate alloc;

mod answer;
mod at_hand;
mod at_once;
#[cfg(feature = "alloc")]
mod boxed;
mod census;
mod cluster;
mod core;
pub mod count;
#[doc = include_str!("../EMBEDDING.md")]
pub mod embedding {}
mod flip;
mod memory;
pub mod number;
mod operation;
mod over_two;
pub mod place;
mod ram;
pub mod registers;
#[doc(hidden)]
#[allow(missing_docs)]
pub mod stage1;
mod system_operation;
mod view;
mod walk;
mod windows;

pub use crate::core::Core;
pub use answer::{Check, Fault, Report, Stop};
#[cfg(feature = "alloc")]
pub use boxed::Edit;
pub use census::{Census, Rights};
pub use cluster::Cluster;
pub use count::MOST_PAGES;
pub use memory::Memory;
pub use operation::{Access, Exception, Level, Status, View, Width};
pub use place::WORDS;
pub use ram::Ram;
pub use stage1::flip::FlippedBit;
pub use stage1::frames::{Frames, Rate};
pub use system_operation::SystemOperation;
pub use view::{Broadcast, Counters, Entry, FetchHint, Flags, Hint, LevelCounters};
pub use walk::{Mapping, Walk};
pub use windows::{MOST_WINDOW_PAGES, MOST_WINDOWS, Malformed, PageFault, WindowList, WindowsError};
