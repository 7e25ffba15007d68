//! pimu's AArch64 files as published, but for mmu.rs, which is the one of this folder (`build.rs` lays them together).
#[cfg(feature = "archive")]
extern crate archive as a72;
#[cfg(not(feature = "archive"))]
extern crate plain as a72;

use std::sync::atomic::{AtomicU32, Ordering};

include!(concat!(env!("OUT_DIR"), "/root.rs"));

/// The mistake that the translation makes, where `build.rs` put mistakes into it; 0 for none.
pub static MISTAKE: AtomicU32 = AtomicU32::new(0);

#[inline]
pub fn mistake(number: u32) -> bool {
    MISTAKE.load(Ordering::Relaxed) == number
}
