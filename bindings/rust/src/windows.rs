//! Windows of pages, and which two of them have a physical page in common.
use crate::answer::Check;
use crate::core::Core;
use crate::number::{CHECK_LIST, PAGE_FAULTS};
use crate::operation::Status;
use crate::ram::Ram;
use crate::stage1::windows::{self, list};
use core::fmt::{self, Debug, Display, Formatter};

pub use crate::stage1::windows::list::{MOST_PAGES as MOST_WINDOW_PAGES, MOST_WINDOWS};

/// At most 64 windows, each of 1 to 16 pages of 4 KiB, for [`Core::windows`]. They are counted from 0.
///
/// It is kept as bytes ([`Self::as_bytes`]), little-endian: how many windows, two bytes; then the first address of each,
/// eight bytes; then how many pages each has, two bytes.
///
/// ```
/// use a72::{Core, Malformed, PageFault, Ram, Status, WindowList, WindowsError};
///
/// let mut list = WindowList::new();
/// list.push(0x4000_1000, 3)?;
/// list.push(0x4000_8000, 16)?;
/// assert_eq!(list.push(0x4000_8800, 1), Err(Malformed::Start(2)));
/// assert_eq!(list.as_bytes()[..10], [2, 0, 0, 0x10, 0, 0x40, 0, 0, 0, 0]);
///
/// // Out of reset stage 1 is off: each page below 2^44 is its own physical page.
/// let (core, ram) = (Core::new(), Ram::new(0x4000_0000, &mut []));
/// assert_eq!(core.windows(&ram, &list)?, None);
/// list.push(0x4000_0000, 2)?;
/// assert_eq!(core.windows(&ram, &list)?, Some((0, 2)));
/// list.push((1 << 44) - 0x1000, 2)?;
/// let fault = PageFault { window: 3, page: 1, status: Status(0) };
/// assert_eq!(core.windows(&ram, &list), Err(WindowsError::Page(fault)));
/// # Ok::<(), WindowsError>(())
/// ```
#[derive(Clone, PartialEq, Eq)]
pub struct WindowList {
    /// Zeros past its end.
    bytes: [u8; 2 + 10 * MOST_WINDOWS],
}

impl Default for WindowList {
    fn default() -> WindowList {
        WindowList::new()
    }
}

/// Its bytes.
impl Debug for WindowList {
    fn fmt(&self, f: &mut Formatter) -> fmt::Result {
        f.debug_tuple("WindowList").field(&self.as_bytes()).finish()
    }
}

impl WindowList {
    /// A list of no window.
    pub const fn new() -> WindowList {
        let bytes = [0; 2 + 10 * MOST_WINDOWS];
        WindowList { bytes }
    }

    /// The list of these bytes, if they are one's.
    pub fn from_bytes(bytes: &[u8]) -> Result<WindowList, Malformed> {
        list::WindowList::read(bytes)?;
        let mut list = WindowList::new();
        list.bytes[..bytes.len()].copy_from_slice(bytes);
        Ok(list)
    }

    /// Append a window of so many pages, the first at `start`. Where no list may have it nothing is appended.
    pub fn push(&mut self, start: u64, pages: u64) -> Result<(), Malformed> {
        let count = self.len();
        if count == MOST_WINDOWS {
            return Err(Malformed::Count);
        }
        let (starts, end) = (2 + 8 * count, 2 + 10 * count);
        // More than two bytes hold are too many, as the most that they hold.
        let pages = u16::try_from(pages).unwrap_or(u16::MAX);
        let mut bytes = self.bytes;
        bytes[..2].copy_from_slice(&(count as u16 + 1).to_le_bytes());
        bytes.copy_within(starts..end, starts + 8);
        bytes[starts..starts + 8].copy_from_slice(&start.to_le_bytes());
        bytes[end + 8..end + 10].copy_from_slice(&pages.to_le_bytes());
        *self = WindowList::from_bytes(&bytes[..end + 10])?;
        Ok(())
    }

    /// How many windows it has.
    pub fn len(&self) -> usize {
        usize::from(u16::from_le_bytes([self.bytes[0], self.bytes[1]]))
    }

    /// Whether it has none.
    pub fn is_empty(&self) -> bool {
        self.len() == 0
    }

    /// Its bytes.
    pub fn as_bytes(&self) -> &[u8] {
        &self.bytes[..2 + 10 * self.len()]
    }
}

/// Why bytes are no list of windows: the first of its fields, as they stand, that is wrong.
#[derive(Clone, Copy, Debug, PartialEq, Eq)]
pub enum Malformed {
    /// There are fewer than two bytes, or not two and ten for each window.
    Length,
    /// There are more than 64 windows.
    Count,
    /// This window begins at no page of 4 KiB.
    Start(usize),
    /// This window has no page, or more than 16.
    Pages(usize),
    /// This window passes 2^64. It may end there.
    End(usize),
}

impl From<list::Malformed> for Malformed {
    fn from(why: list::Malformed) -> Malformed {
        match why {
            list::Malformed::Length => Malformed::Length,
            list::Malformed::Count => Malformed::Count,
            list::Malformed::Start(window) => Malformed::Start(window as usize),
            list::Malformed::Pages(window) => Malformed::Pages(window as usize),
            list::Malformed::End(window) => Malformed::End(window as usize),
        }
    }
}

impl Display for Malformed {
    fn fmt(&self, f: &mut Formatter) -> fmt::Result {
        match self {
            Malformed::Length => write!(f, "the length is not that of a list of windows"),
            Malformed::Count => write!(f, "there are more than {MOST_WINDOWS} windows"),
            Malformed::Start(window) => write!(f, "window {window} begins at no page"),
            Malformed::Pages(window) => {
                write!(f, "window {window} has no page, or more than {MOST_WINDOW_PAGES}")
            }
            Malformed::End(window) => write!(f, "window {window} passes 2^64"),
        }
    }
}

impl core::error::Error for Malformed {}

/// A page of a window that a privileged write does not reach.
#[derive(Clone, Copy, Debug, PartialEq, Eq)]
pub struct PageFault {
    /// The window, from 0.
    pub window: usize,
    /// The page in it, from 0.
    pub page: usize,
    /// The fault's status.
    pub status: Status,
}

/// Why [`Core::windows`] has no answer.
#[derive(Clone, Copy, Debug, PartialEq, Eq)]
pub enum WindowsError {
    /// The call misses a check: [`Check::Level`], [`Check::Window`], that of the window of RAM, or [`Check::Core`].
    Refused(Check),
    /// The bytes are no list of windows.
    List(Malformed),
    /// The first page that faults, by window and then page.
    Page(PageFault),
}

impl WindowsError {
    /// Its number: 1, 2 or 8 of a check, 9 of a list, 10 of a page.
    pub fn number(&self) -> u64 {
        match self {
            WindowsError::Refused(check) => check.number(),
            WindowsError::List(_) => CHECK_LIST,
            WindowsError::Page(_) => PAGE_FAULTS,
        }
    }
}

impl From<Check> for WindowsError {
    fn from(missed: Check) -> WindowsError {
        WindowsError::Refused(missed)
    }
}

impl From<Malformed> for WindowsError {
    fn from(why: Malformed) -> WindowsError {
        WindowsError::List(why)
    }
}

impl From<windows::WindowsError> for WindowsError {
    fn from(error: windows::WindowsError) -> WindowsError {
        match error {
            windows::WindowsError::Check(missed) => WindowsError::Refused(missed.into()),
            windows::WindowsError::List(why) => Malformed::from(why).into(),
            windows::WindowsError::Page(fault) => WindowsError::Page(PageFault {
                window: fault.window as usize,
                page: fault.page as usize,
                status: Status(fault.fault.fsc),
            }),
        }
    }
}

impl Display for WindowsError {
    fn fmt(&self, f: &mut Formatter) -> fmt::Result {
        match self {
            WindowsError::Refused(check) => write!(f, "refused by check {}", check.number()),
            WindowsError::List(why) => write!(f, "no list of windows: {why}"),
            WindowsError::Page(PageFault { window, page, status }) => {
                let name = status.name();
                write!(
                    f,
                    "{name} (status 0x{:02x}) on page {page} of window {window}",
                    status.0
                )
            }
        }
    }
}

impl core::error::Error for WindowsError {}

impl Core {
    /// The first two windows, by the lower number and then the higher, that have a physical page in common; `None` where
    /// no two have. A page that lies twice in one window does not count.
    ///
    /// Each page is translated by registers and RAM as they are, for a privileged write in the regime of the present
    /// level, also at EL0 and where accesses are marked unprivileged: the cache is not asked, and nothing changes. A
    /// page that faults is an error, whichever windows before it have a page in common.
    pub fn windows(&self, ram: &Ram, list: &WindowList) -> Result<Option<(usize, usize)>, WindowsError> {
        self.windows_of_bytes(ram, list.as_bytes())
    }

    /// [`Self::windows`] of a list's bytes, as a file has them. They may be any: what is no list is an error.
    pub fn windows_of_bytes(&self, ram: &Ram, list: &[u8]) -> Result<Option<(usize, usize)>, WindowsError> {
        let found = windows::windows(&self.core, ram.base, ram.bytes, list)?;
        Ok(found.map(|pair| (pair.first as usize, pair.second as usize)))
    }
}
