//! What looks at core and RAM and moves nothing: the counts of a census, by `a72_census`, what a list of windows comes
//! to, by `a72_windows`, and the first bit of RAM whose flip changes an answer, by `a72_flip`.
use super::{library, Held, UNWRITTEN};
use crate::census::{Counts, COUNTS};
use crate::number;
use crate::op::Ans;
use crate::Ram;
use library::{a72_census, a72_flip, a72_windows};

/// A core behind the boundary, or one of a cluster's, by the functions that look.
pub trait Looks {
    /// `a72_census`: its number.
    fn count(&self, first: u64, pages: u64, counts: &mut Counts, base: u64, ram: &[u8]) -> u64;
    /// `a72_windows`: its number.
    fn windows_into(&self, list: &[u8], out: &mut [u64; 3], base: u64, ram: &[u8]) -> u64;
    /// `a72_flip`: its number. RAM is changed while it runs.
    fn flip_into(&self, va: u64, kind: u64, user: u64, out: &mut [u64; 3], base: u64, ram: &mut [u8]) -> u64;
    /// The number where words name nothing.
    fn unnamed(&self) -> u64 {
        number::NAMES_NOTHING
    }
}

impl Looks for Held {
    #[inline(always)]
    fn count(&self, first: u64, pages: u64, counts: &mut Counts, base: u64, ram: &[u8]) -> u64 {
        // Sound: each pointer is that of a core, an array or a slice, with its own length; the counts are borrowed exclusively.
        unsafe { a72_census(self.handle(), first, pages, counts, base, ram.as_ptr(), ram.len()) }
    }

    #[inline(always)]
    fn windows_into(&self, list: &[u8], out: &mut [u64; 3], base: u64, ram: &[u8]) -> u64 {
        let (at, len) = (ram.as_ptr(), ram.len());
        // Sound: each pointer is that of a core, an array or a slice, with its own length; `out` is borrowed exclusively.
        unsafe { a72_windows(self.handle(), list.as_ptr(), list.len(), out, base, at, len) }
    }

    #[inline(always)]
    fn flip_into(&self, va: u64, kind: u64, user: u64, out: &mut [u64; 3], base: u64, ram: &mut [u8]) -> u64 {
        let (at, len) = (ram.as_mut_ptr(), ram.len());
        // Sound: each pointer is that of a core, an array or a slice, with its own length; both are borrowed exclusively.
        unsafe { a72_flip(self.handle(), va, kind, user, out, base, at, len) }
    }
}

/// By `a72_census`. Where it is refused no count may be written.
pub(crate) fn census(core: &impl Looks, first: u64, pages: u64, ram: &mut Ram) -> Ans {
    let mut counts = Box::new([UNWRITTEN; COUNTS]);
    // Sound: the window's bytes, which `ram` lends to be read.
    let bytes = unsafe { std::slice::from_raw_parts(ram.bytes.lent(false), ram.bytes.len()) };
    match core.count(first, pages, &mut counts, ram.base, bytes) {
        number::DONE => Ans::Counts(counts),
        n @ 1..=number::LAST_CHECK if *counts == [UNWRITTEN; COUNTS] => Ans::Number(n as u8),
        _ => Ans::Panic,
    }
}

/// The answer by `a72_census`, where `a72_step` said the same of it.
pub(crate) fn counted(said: Ans, answer: Ans) -> Ans {
    match (said, answer) {
        (Ans::Ok, answer @ Ans::Counts(_)) => answer,
        (Ans::Number(n), Ans::Number(m)) if n == m => Ans::Number(n),
        _ => Ans::Panic,
    }
}

/// By `a72_windows`. Where the list is refused nothing may be written, and never a byte of it.
pub(crate) fn windows(core: &impl Looks, ram: &mut Ram) -> Ans {
    // A list may begin at any address.
    let skip = ram.list.len() % 8;
    let bytes = [&[UNWRITTEN as u8; 8][skip..], &ram.list].concat();
    let (list, mut out) = (bytes.clone(), [UNWRITTEN; 3]);
    // Sound: the window's bytes, which `ram` lends to be read.
    let window = unsafe { std::slice::from_raw_parts(ram.bytes.lent(false), ram.bytes.len()) };
    let number = core.windows_into(&list[8 - skip..], &mut out, ram.base, window);
    match (number, out) {
        _ if list != bytes => Ans::Panic,
        (number::DONE, [1, first, second]) => Ans::Pair(first, second),
        (number::DONE, [0, 0, 0]) => Ans::None,
        (number::PAGE_FAULTS, [window, page, status @ 0..=0xFF]) => Ans::Page(window, page, status as u8),
        (n @ 1..=number::LAST_CHECK, [UNWRITTEN, UNWRITTEN, UNWRITTEN]) => Ans::Number(n as u8),
        _ => Ans::Panic,
    }
}

/// By `a72_flip`. Where it is refused nothing may be written, and words that name nothing are told first of all.
pub(crate) fn flip(core: &impl Looks, kind: u8, user: bool, va: u64, ram: &mut Ram) -> Ans {
    let mut ask = |kind, user| {
        let mut out = [UNWRITTEN; 3];
        (
            core.flip_into(va, kind, user, &mut out, ram.base, &mut ram.bytes),
            out,
        )
    };
    let unnamed = [ask(3, 0), ask(kind.into(), 2)];
    if unnamed != [(core.unnamed(), [UNWRITTEN; 3]); 2] {
        return Ans::Panic;
    }
    match ask(kind.into(), user.into()) {
        (number::DONE, [1, pa, bit @ 0..64]) => Ans::Bit(pa, bit as u8),
        (number::DONE, [0, 0, 0]) => Ans::None,
        (n @ 1..=number::LAST_CHECK, [UNWRITTEN, UNWRITTEN, UNWRITTEN]) => Ans::Number(n as u8),
        _ => Ans::Panic,
    }
}

/// The answer by `a72_windows` or `a72_flip`, where `a72_step` said done, or refused alike.
pub(crate) fn looked(said: Ans, answer: Ans) -> Ans {
    match (said, answer) {
        (Ans::Ok, Ans::Number(1 | 2)) => Ans::Panic,
        (Ans::Ok, answer) => answer,
        (Ans::Number(n), Ans::Number(m)) if n == m => Ans::Number(n),
        _ => Ans::Panic,
    }
}

#[cfg(test)]
mod tests {
    use super::*;
    use crate::ffi::four::CHECK_CORE;

    /// A core that there is not; with a mistake words that name nothing are judged before its number.
    struct NoCore {
        names_first: bool,
    }

    impl Looks for NoCore {
        fn count(&self, _: u64, _: u64, _: &mut Counts, _: u64, _: &[u8]) -> u64 {
            CHECK_CORE
        }

        fn windows_into(&self, _: &[u8], _: &mut [u64; 3], _: u64, _: &[u8]) -> u64 {
            CHECK_CORE
        }

        fn flip_into(&self, _: u64, kind: u64, user: u64, _: &mut [u64; 3], _: u64, _: &mut [u8]) -> u64 {
            match (self.names_first, kind, user) {
                (true, 1 | 2 | 4, 0 | 1) | (false, ..) => CHECK_CORE,
                _ => number::NAMES_NOTHING,
            }
        }

        fn unnamed(&self) -> u64 {
            CHECK_CORE
        }
    }

    #[test]
    fn the_number_of_a_core_comes_before_names() {
        let ask = |names_first| flip(&NoCore { names_first }, 1, true, 0, &mut Ram::default());
        assert_eq!(ask(false), Ans::Number(8));
        assert_eq!(ask(true), Ans::Panic);
    }
}
