// Written by tools/plain from crates/windows/src/lib.rt: change that.
//! Voice windows: which two windows of a list share a physical page. All pages are translated with nothing cached, for a
//! privileged write in the regime of the core's level, before any two windows are compared.

pub mod list;
pub mod pages;
mod pairs;

use crate::stage1::cpu::Core;
use crate::stage1::cpu::check::{self, Check};
use list::{Malformed, WindowList};
use pages::PageFault;
use pairs::first_pair;

/// Two windows that share a physical page, by their numbers: the first is the lower.
#[derive(Clone, Copy, PartialEq, Eq, Debug)]
pub struct Pair {
    pub first: u64,
    pub second: u64,
}

/// Why there is no answer.
#[derive(Clone, Copy, Debug, PartialEq, Eq)]
pub enum WindowsError {
    /// The core's level is above 3, or the window of RAM passes 2^64.
    Check(Check),
    /// The list is not right.
    List(Malformed),
    /// A page faults: the first, by window and then by page.
    Page(PageFault),
}

impl WindowsError {
    /// Its number: the check's, 1 or 2; 9 for the list, 10 for a page.
    #[inline]
    pub fn number(self) -> u8 {
        match self {
            WindowsError::Check(check) => check.number(),
            WindowsError::List(_) => 9,
            WindowsError::Page(_) => 10,
        }
    }
}

impl From<Check> for WindowsError {
    #[inline]
    fn from(check: Check) -> Self {
        WindowsError::Check(check)
    }
}

impl From<Malformed> for WindowsError {
    #[inline]
    fn from(why: Malformed) -> Self {
        WindowsError::List(why)
    }
}

impl From<PageFault> for WindowsError {
    #[inline]
    fn from(e: PageFault) -> Self {
        WindowsError::Page(e)
    }
}

/// The first two windows of a list that share a physical page, by lower number and then by higher; or that no two do.
/// The list is `list::WindowList`'s. The answer depends on nothing but the registers that translate, the level, RAM and
/// the list: on no cache, on no mark, on no earlier call.
#[inline]
pub fn windows(core: &Core, base: u64, ram: &[u8], list: &[u8]) -> Result<Option<Pair>, WindowsError> {
    check::with_ram(core.privilege.level, base, ram.len() as u64)?;
    let list = WindowList::read(list)?;
    let pages = list.physical_pages(core, base, ram)?;
    Ok(first_pair(&list, &pages))
}
