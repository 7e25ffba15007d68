//! The core: its state, and every operation as a method.
use crate::edit::Edit;
use crate::held::Held;
use crate::library::Answer;
use crate::raw;
use crate::words::of_exception;
use plain::number::{DONE, FAULT};
use plain::registers::Key;
use plain::{Access, Census, Exception, Level, Ram, Report, Status, Stop, SystemOperation, Width, WORDS};
use std::fmt::{self, Debug, Formatter};

/// One core: its registers, its cache of translations and their counters, in 41,744 bytes of its own.
///
/// It is `Send`, and not `Sync`: the library takes a core for its own as long as a call lasts, also where it only
/// reads.
///
/// ```compile_fail
/// fn shared<T: Sync>() {}
/// shared::<a72::Core>();
/// ```
pub struct Core {
    pub(crate) held: Held,
    pub(crate) report: Report,
}

/// A clone holds the same, and has done nothing yet.
impl Clone for Core {
    fn clone(&self) -> Core {
        Core::of(self.held.clone())
    }
}

/// Two cores are equal where their words are.
impl PartialEq for Core {
    fn eq(&self, other: &Core) -> bool {
        self.words() == other.words()
    }
}

impl Eq for Core {}

impl Default for Core {
    fn default() -> Core {
        Core::new()
    }
}

/// In short: [`Core::words`] has all.
impl Debug for Core {
    fn fmt(&self, f: &mut Formatter) -> fmt::Result {
        f.debug_struct("Core")
            .field("level", &self.level())
            .field("pc", &format_args!("{:#x}", self.pc()))
            .finish_non_exhaustive()
    }
}

/// By a number that the library has just given.
#[cold]
pub(crate) fn stop(number: u64, access: Access, address: u64) -> Stop {
    Stop::from_number(number, access, address).expect("a number that stops an operation")
}

impl Core {
    fn of(held: Held) -> Core {
        let report = Report::default();
        Core { held, report }
    }

    /// A core out of reset: EL3, stage 1 off, the cache empty.
    pub fn new() -> Core {
        Core::of(Held::new())
    }

    /// What the last operation did. It read no descriptor where it was refused, undefined or unimplemented, or translates
    /// nothing: register writes, settings of level, mark and general registers, exceptions taken, [`Self::receive`],
    /// [`Self::take_broadcast`] and [`Self::restore`] too. It stays where a part is set by hand
    /// ([`Self::set_pc`], [`Self::set_pstate`], [`Self::set_flags`], [`Self::set_generation`]), with
    /// [`Self::translate_at_hand`] and [`Self::fetch_at_hand`], which give `None`, and with all that takes `&self`, a
    /// census too. It is no part of what the core holds: neither saved nor compared, and a clone has none.
    #[inline]
    pub fn report(&self) -> Report {
        self.report
    }

    /// An answer as it comes, its reads kept as the report.
    #[inline]
    fn kept(&mut self, (number, Answer { value, reads }): (u64, Answer)) -> (u64, u64) {
        self.report = Report { reads };
        (number, value)
    }

    /// The answer of an operation that gives nothing but success, and reports nothing.
    #[inline]
    fn done(&mut self, number: u64) -> Result<(), Stop> {
        self.report = Report::default();
        match number {
            DONE => Ok(()),
            n => Err(stop(n, Access::Read, 0)),
        }
    }

    /// The core of these words, as [`Self::words`] gave them, or any others: of a word that is larger than its part
    /// some bits count.
    pub fn from_words(words: Box<[u64; WORDS]>) -> Core {
        let mut core = Core::new();
        core.restore(&words);
        core
    }

    /// Become the core of these words.
    pub fn restore(&mut self, words: &[u64; WORDS]) {
        self.held.restore(words);
        self.report = Report::default();
    }

    /// All that the core holds, saved as words. [`crate::place`] has the layout.
    pub fn words(&self) -> Box<[u64; WORDS]> {
        self.held.save()
    }

    /// The same, into an array.
    pub fn save(&self, words: &mut [u64; WORDS]) {
        self.held.save_to(words);
    }

    /// The word at a place, as [`Self::words`] has it; 0 past the last.
    pub fn word(&self, place: usize) -> u64 {
        raw::word(&self.held, place)
    }

    /// The words, to be changed: the core becomes the one that they hold when what this gives is dropped. The library
    /// stays inside whatever they hold; that the cache holds only what the tables said is then the caller's affair.
    pub fn words_mut(&mut self) -> Edit<'_> {
        Edit::new(self)
    }

    /// The words alone.
    pub fn into_words(self) -> Box<[u64; WORDS]> {
        self.words()
    }

    /// The physical address of `va` for an access of this kind at the present level. With stage 1 off: `va` without
    /// its tag where TBI drops that, and from 2^44 on a fault of status 0x00.
    #[inline]
    pub fn translate(&mut self, ram: &Ram, va: u64, access: Access) -> Result<u64, Stop> {
        let answer = raw::translate(&mut self.held, va, access as u64, ram.base, ram.bytes);
        match self.kept(answer) {
            (DONE, pa) => Ok(pa),
            (n, _) => Err(stop(n, access, va)),
        }
    }

    /// Where a data read of `va` would go; `None` where it would fault.
    #[inline]
    pub fn data_pa(&mut self, ram: &Ram, va: u64) -> Result<Option<u64>, Stop> {
        let answer = raw::data_pa(&mut self.held, va, ram.base, ram.bytes);
        match self.kept(answer) {
            (DONE, pa) => Ok(Some(pa)),
            (FAULT.., _) => Ok(None),
            (n, _) => Err(stop(n, Access::Read, va)),
        }
    }

    /// The library has no call for what is at hand: `None`, and [`Core::translate`] does it all.
    pub fn translate_at_hand(&mut self, _va: u64, _access: Access) -> Option<Result<u64, Status>> {
        None
    }

    /// The same of [`Core::fetch`].
    pub fn fetch_at_hand(&mut self, _va: u64) -> Option<Result<u64, Status>> {
        None
    }

    /// Where an instruction fetch from `va` would go; `None` where it would fault.
    #[inline]
    pub fn fetch_pa(&mut self, ram: &Ram, va: u64) -> Result<Option<u64>, Stop> {
        let answer = raw::fetch_pa(&mut self.held, va, ram.base, ram.bytes);
        match self.kept(answer) {
            (DONE, pa) => Ok(Some(pa)),
            (FAULT.., _) => Ok(None),
            (n, _) => Err(stop(n, Access::Fetch, va)),
        }
    }

    /// Load from `va`, zero-extended; over two pages where it crosses the end of one. A fault's address is then the lowest
    /// failing byte's: the first page's bytes outside RAM come before a fault of the second.
    #[inline]
    pub fn load(&mut self, ram: &Ram, va: u64, width: Width) -> Result<u64, Stop> {
        self.load_bytes(ram, va, width as u64)
    }

    /// [`Self::load`] of a size in bytes, which is refused where it is none of 1, 2, 4 and 8.
    #[inline]
    pub fn load_bytes(&mut self, ram: &Ram, va: u64, size: u64) -> Result<u64, Stop> {
        let answer = raw::load(&mut self.held, va, size, ram.base, ram.bytes);
        match self.kept(answer) {
            (DONE, v) => Ok(v),
            (n, address) => Err(stop(n, Access::Read, address)),
        }
    }

    /// Store the low bytes of a value at `va`. Both pages are translated before either is written. A fault's address is then
    /// the lowest failing byte's: the first page's bytes outside RAM come before a fault of the second.
    #[inline]
    pub fn store(&mut self, ram: &mut Ram, va: u64, width: Width, value: u64) -> Result<(), Stop> {
        self.store_bytes(ram, va, width as u64, value)
    }

    /// [`Self::store`] of a size in bytes, which is refused where it is none of 1, 2, 4 and 8.
    #[inline]
    pub fn store_bytes(&mut self, ram: &mut Ram, va: u64, size: u64, value: u64) -> Result<(), Stop> {
        let answer = raw::store(&mut self.held, va, size, value, ram.base, ram.bytes);
        match self.kept(answer) {
            (DONE, _) => Ok(()),
            (n, address) => Err(stop(n, Access::Write, address)),
        }
    }

    /// The instruction at `va`.
    #[inline]
    pub fn fetch(&mut self, ram: &Ram, va: u64) -> Result<u32, Stop> {
        let answer = raw::fetch(&mut self.held, va, ram.base, ram.bytes);
        match self.kept(answer) {
            (DONE, instruction) => Ok(instruction as u32),
            (n, _) => Err(stop(n, Access::Fetch, va)),
        }
    }

    /// Carry out a SYS instruction: TLBI, AT, DC ZVA; other cache maintenance does nothing.
    pub fn system(&mut self, ram: &mut Ram, operation: SystemOperation) -> Result<(), Stop> {
        let SystemOperation {
            op1,
            crn,
            crm,
            op2,
            rt,
        } = operation;
        let answer = raw::system(&mut self.held, [op1, crn, crm, op2, rt], ram.base, ram.bytes);
        match self.kept(answer) {
            (DONE, _) => Ok(()),
            (n, address) => Err(stop(n, Access::Write, address)),
        }
    }

    /// How `pages` pages of 4 KiB from that of `first` on are mapped in the regime of the present level, by registers
    /// and RAM as they are: the cache is not asked, and nothing changes. More than [`crate::MOST_PAGES`] pages are
    /// refused, and a range that passes 2^64; it may end there.
    pub fn census(&self, ram: &Ram, first: u64, pages: u64) -> Result<Census, Stop> {
        match raw::census(&self.held, first, pages, ram.base, ram.bytes) {
            (DONE, counts) => Ok(Census::of(&counts)),
            (n, _) => Err(stop(n, Access::Read, first)),
        }
    }

    /// Write a system register by its key ([`crate::registers`]): the register's mask applies, and the cache forgets
    /// what the write unsettles.
    pub fn write_register(&mut self, key: impl Into<Key>, value: u64) -> Result<(), Stop> {
        let number = raw::register(&mut self.held, key.into().into(), value);
        self.done(number)
    }

    /// Set the present exception level.
    pub fn set_level(&mut self, level: impl Into<Level>) -> Result<(), Stop> {
        let number = raw::level(&mut self.held, level.into().into());
        self.done(number)
    }

    /// Mark the accesses that follow as unprivileged (LDTR and STTR), or not.
    pub fn set_unprivileged(&mut self, on: bool) -> Result<(), Stop> {
        let number = raw::mark(&mut self.held, on.into());
        self.done(number)
    }

    /// Set a general register, X0 to X30; 31 is the zero register and takes nothing.
    pub fn set_general(&mut self, number: u64, value: u64) -> Result<(), Stop> {
        let number = raw::general(&mut self.held, number, value);
        self.done(number)
    }

    /// Take an exception: it is routed by SCR_EL3 and HCR_EL2; ELR, SPSR, ESR and FAR are written, the level and the
    /// PC are those of the vector.
    pub fn take(&mut self, exception: &Exception) -> Result<(), Stop> {
        let number = raw::abort(&mut self.held, &of_exception(exception));
        self.done(number)
    }
}
