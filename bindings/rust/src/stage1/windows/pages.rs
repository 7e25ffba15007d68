// Written by tools/plain from crates/windows/src/pages.rt: change that.
//! The physical pages of windows, with nothing cached.

use crate::stage1::cpu::Core;
use crate::stage1::fault::Fault;
use crate::stage1::sysreg::regs::Regime;
use crate::stage1::tlb::access::Kind;
use crate::stage1::tlb::fresh::fresh_answer;
use crate::stage1::walk::regime::Bank;
use crate::stage1::windows::list::{MOST_PAGES, MOST_WINDOWS, Window, WindowList};

/// The first page that faults, by window and then by page; both numbers count from 0.
#[derive(Clone, Copy, Debug, PartialEq, Eq)]
pub struct PageFault {
    pub window: u64,
    pub page: u64,
    pub fault: Fault,
}

/// The physical page of each page of each window: an address divided by 4096. A row belongs to the window of its
/// number, and begins with its pages.
pub type PhysicalPages = [[u64; MOST_PAGES]; MOST_WINDOWS];

/// The physical pages of one window.
#[inline]
fn window_pages(
    s: Bank,
    regime: Regime,
    base: u64,
    ram: &[u8],
    i: u64,
    w: Window,
) -> Result<[u64; MOST_PAGES], PageFault> {
    let mut row = [0; MOST_PAGES];
    for page in 0..w.pages {
        let va = w.start + 4096 * page;
        match fresh_answer(s, regime, false, Kind::Write, va, base, ram) {
            Ok(pa) => row[page as usize] = pa / 4096,
            Err(fault) => {
                return Err(PageFault {
                    window: i,
                    page,
                    fault,
                });
            }
        }
    }
    Ok(row)
}

impl WindowList {
    /// In a regime, under its registers.
    #[inline]
    fn pages_in(&self, s: Bank, regime: Regime, base: u64, ram: &[u8]) -> Result<PhysicalPages, PageFault> {
        let mut rows = [[0; MOST_PAGES]; MOST_WINDOWS];
        for i in 0..self.count {
            rows[i] = window_pages(s, regime, base, ram, i as u64, self.windows[i])?;
        }
        Ok(rows)
    }

    /// The physical pages of every window, with nothing cached, for a privileged write in the regime of the core's
    /// level; or the first page that faults. Neither cache nor mark counts.
    #[inline]
    pub fn physical_pages(&self, core: &Core, base: u64, ram: &[u8]) -> Result<PhysicalPages, PageFault> {
        self.pages_in(core.bank(), core.regime(), base, ram)
    }
}
