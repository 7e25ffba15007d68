//! Which two windows have a physical page in common.
use crate::core::Core;
use crate::raw;
use plain::number::{CHECK_LIST, DONE, PAGE_FAULTS};
use plain::{Check, PageFault, Ram, Status, WindowList, WindowsError};

/// By a number that the library has given, and what it has written. Why bytes are no list it does not say: the list's own
/// type does.
fn error(number: u64, [window, page, status]: [u64; 3], list: &[u8]) -> WindowsError {
    match number {
        CHECK_LIST => WindowsError::List(
            WindowList::from_bytes(list).expect_err("bytes that the library takes for no list"),
        ),
        PAGE_FAULTS => WindowsError::Page(PageFault {
            window: window as usize,
            page: page as usize,
            status: Status(status as u8),
        }),
        n => WindowsError::Refused(Check::from_number(n).expect("the number of a check")),
    }
}

/// The answer by what the library gave.
pub(crate) fn found(
    (number, out): (u64, [u64; 3]),
    list: &[u8],
) -> Result<Option<(usize, usize)>, WindowsError> {
    let [found, first, second] = out;
    match number {
        DONE => Ok((found == 1).then_some((first as usize, second as usize))),
        n => Err(error(n, out, list)),
    }
}

impl Core {
    /// The first two windows, by the lower number and then the higher, that have a physical page in common; `None` where
    /// no two have. A page that lies twice in one window does not count.
    ///
    /// Each page is translated by registers and RAM as they are, for a privileged write in the regime of the present
    /// level, also at EL0 and where accesses are marked unprivileged: the cache is not asked, and nothing changes. A
    /// page that faults is an error, whichever windows before it have a page in common.
    pub fn windows(&self, ram: &Ram, list: &WindowList) -> Result<Option<(usize, usize)>, WindowsError> {
        self.windows_of_bytes(ram, list.as_bytes())
    }

    /// [`Self::windows`] of a list's bytes, as a file has them. They may be any: what is no list is an error.
    pub fn windows_of_bytes(&self, ram: &Ram, list: &[u8]) -> Result<Option<(usize, usize)>, WindowsError> {
        found(raw::windows(&self.held, list, ram.base, ram.bytes), list)
    }
}
