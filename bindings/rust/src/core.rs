//! The core: its state, and every operation as a method.
use crate::answer::{Report, Stop};
use crate::census::Census;
use crate::number::{DONE, FAULT};
use crate::operation::{Access, Exception, Level, Width};
use crate::place::State;
use crate::ram::Ram;
use crate::registers::Key;
use crate::stage1::call_words::reply::Report as Answer;
use crate::stage1::cpu::call::Reply;
use crate::stage1::quick::{hint, settings, sys, translation};
use crate::stage1::{cpu, saved};
use crate::system_operation::SystemOperation;
use core::fmt::{self, Debug, Formatter};

/// One core: its registers, its cache of translations and their counters, some 41 KB. Nothing of it can be written
/// past a method, so that no write skips what the cache has to forget.
#[repr(C)]
pub struct Core {
    /// What the last operation gave, which is no part of what the core holds. Its value may be of one before. It is
    /// first, since every operation writes it: its place is then a short one.
    pub(crate) answer: Answer,
    pub(crate) core: cpu::Core,
}

/// A clone holds the same, and has done nothing yet.
impl Clone for Core {
    fn clone(&self) -> Core {
        Core::of(self.core.clone())
    }
}

/// Two cores are equal where they hold the same.
impl PartialEq for Core {
    fn eq(&self, other: &Core) -> bool {
        self.core == other.core
    }
}

impl Eq for Core {}

impl Default for Core {
    fn default() -> Core {
        Core::new()
    }
}

/// In short: [`Core::words`] has all.
impl Debug for Core {
    fn fmt(&self, f: &mut Formatter) -> fmt::Result {
        f.debug_struct("Core")
            .field("level", &self.level())
            .field("pc", &format_args!("{:#x}", self.pc()))
            .field("pstate", &format_args!("{:#x}", self.pstate()))
            .field("asid", &self.asid())
            .field("counters", &self.counters())
            .finish_non_exhaustive()
    }
}

impl Core {
    fn of(core: cpu::Core) -> Core {
        let answer = Answer { value: 0, reads: 0 };
        Core { core, answer }
    }

    /// A core out of reset: EL3, stage 1 off, the cache empty.
    pub fn new() -> Core {
        Core::of(cpu::Core::new())
    }

    /// What the last operation did. It read no descriptor where it was refused, undefined or unimplemented, or translates
    /// nothing: register writes, settings of level, mark and general registers, exceptions taken, [`Self::receive`],
    /// [`Self::take_broadcast`] and [`Self::restore`] too. It stays where a part is set by hand
    /// ([`Self::set_pc`], [`Self::set_pstate`], [`Self::set_flags`], [`Self::set_generation`]), where
    /// [`Self::translate_at_hand`] and [`Self::fetch_at_hand`] give `None`, and with all that takes `&self`, a census too.
    /// It is no part of what the core holds: neither saved nor compared, and a clone has none.
    #[inline]
    pub fn report(&self) -> Report {
        let reads = self.answer.reads;
        Report { reads }
    }

    /// An operation is stopped. Of one that is refused no answer was written, and it read nothing.
    #[inline(always)]
    pub(crate) fn stop(&mut self, number: u64, access: Access, address: u64) -> Stop {
        if number < FAULT {
            self.answer.reads = 0;
        }
        Stop::of(number, access, address)
    }

    /// The end of an operation that gives nothing but success, and translates nothing.
    #[inline(always)]
    fn done(&mut self, number: u64) -> Result<(), Stop> {
        self.answer.reads = 0;
        match number {
            DONE => Ok(()),
            n => Err(Stop::refused(n)),
        }
    }

    /// Become the core of these words, as [`Self::save`] gave them, or any others: of a word that is larger than its
    /// part some bits count.
    pub fn restore(&mut self, words: &State) {
        saved::restore::restore(&mut self.core, words);
        self.answer.reads = 0;
    }

    /// All that the core holds, saved as words. [`crate::place`] has the layout.
    pub fn save(&self, words: &mut State) {
        saved::save::save(&self.core, words);
    }

    /// The word at a place, as [`Self::save`] has it; 0 past the last.
    pub fn word(&self, place: usize) -> u64 {
        saved::save::word(&self.core, place)
    }

    /// The physical address of `va` for an access of this kind at the present level. With stage 1 off: `va` without
    /// its tag where TBI drops that, and from 2^44 on a fault of status 0x00.
    #[inline(always)]
    pub fn translate(&mut self, ram: &Ram, va: u64, access: Access) -> Result<u64, Stop> {
        match hint::served(&self.core, va, access as u64, ram.base, ram.bytes.len() as u64) {
            Some(pa) => {
                self.answer.reads = 0;
                Ok(pa)
            }
            None => self.translate_past_hint(ram, va, access),
        }
    }

    // What `quick::translation::translate` does where no hint serves; out of line, so that a hint pays nothing for it.
    #[inline(never)]
    fn translate_past_hint(&mut self, ram: &Ram, va: u64, access: Access) -> Result<u64, Stop> {
        let answer = &mut self.answer;
        match translation::kind_asked(&mut self.core, va, access as u64, answer, ram.base, ram.bytes) {
            DONE => Ok(answer.value),
            n => Err(self.stop(n, access, va)),
        }
    }

    /// Where a data read of `va` would go; `None` where it would fault.
    #[inline(always)]
    pub fn data_pa(&mut self, ram: &Ram, va: u64) -> Result<Option<u64>, Stop> {
        let read = Access::Read as u64;
        match hint::served(&self.core, va, read, ram.base, ram.bytes.len() as u64) {
            Some(pa) => {
                self.answer.reads = 0;
                Ok(Some(pa))
            }
            None => {
                let number = self.data_pa_past_hint(ram, va);
                self.reached(number, Access::Read, va)
            }
        }
    }

    // The number alone, so that a hint lays nothing ready for an answer in memory.
    #[inline(never)]
    fn data_pa_past_hint(&mut self, ram: &Ram, va: u64) -> u64 {
        translation::data_rest(&mut self.core, va, &mut self.answer, ram.base, ram.bytes)
    }

    /// Where an access goes, by the number of what told it.
    #[inline(always)]
    pub(crate) fn reached(&mut self, number: u64, access: Access, va: u64) -> Result<Option<u64>, Stop> {
        match number {
            DONE => Ok(Some(self.answer.value)),
            FAULT.. => Ok(None),
            n => Err(self.stop(n, access, va)),
        }
    }

    /// Load from `va`, zero-extended; over two pages where it crosses the end of one. A fault's address is then the lowest
    /// failing byte's: the first page's bytes outside RAM come before a fault of the second.
    #[inline(always)]
    pub fn load(&mut self, ram: &Ram, va: u64, width: Width) -> Result<u64, Stop> {
        self.load_bytes(ram, va, width as u64)
    }

    /// [`Self::load`] of a size in bytes, which is refused where it is none of 1, 2, 4 and 8.
    #[inline]
    pub fn load_bytes(&mut self, ram: &Ram, va: u64, size: u64) -> Result<u64, Stop> {
        if 4 < size {
            if size == 8 {
                return self.load_as::<u64>(ram, va);
            }
        } else if size == 4 {
            return self.load_as::<u32>(ram, va);
        } else if size == 2 {
            return self.load_as::<u16>(ram, va);
        } else if size == 1 {
            return self.load_as::<u8>(ram, va);
        }
        self.load_checked(ram, va, size)
    }

    /// Store the low bytes of a value at `va`. Both pages are translated before either is written. A fault's address is then
    /// the lowest failing byte's: the first page's bytes outside RAM come before a fault of the second.
    #[inline(always)]
    pub fn store(&mut self, ram: &mut Ram, va: u64, width: Width, value: u64) -> Result<(), Stop> {
        self.store_bytes(ram, va, width as u64, value)
    }

    /// [`Self::store`] of a size in bytes, which is refused where it is none of 1, 2, 4 and 8.
    #[inline]
    pub fn store_bytes(&mut self, ram: &mut Ram, va: u64, size: u64, value: u64) -> Result<(), Stop> {
        if 4 < size {
            if size == 8 {
                return self.store_as::<u64>(ram, va, value);
            }
        } else if size == 4 {
            return self.store_as::<u32>(ram, va, value);
        } else if size == 2 {
            return self.store_as::<u16>(ram, va, value);
        } else if size == 1 {
            return self.store_as::<u8>(ram, va, value);
        }
        self.store_checked(ram, va, size, value)
    }

    /// Carry out a SYS instruction: TLBI, AT, DC ZVA; other cache maintenance does nothing.
    pub fn system(&mut self, ram: &mut Ram, operation: SystemOperation) -> Result<(), Stop> {
        let SystemOperation {
            op1,
            crn,
            crm,
            op2,
            rt,
        } = operation;
        match sys::system(
            &mut self.core,
            op1,
            crn,
            crm,
            op2,
            rt,
            &mut self.answer,
            ram.base,
            ram.bytes,
        ) {
            DONE => Ok(()),
            n => Err(self.stop(n, Access::Write, self.answer.value)),
        }
    }

    /// How `pages` pages of 4 KiB from that of `first` on are mapped in the regime of the present level, by registers
    /// and RAM as they are: the cache is not asked, and nothing changes. More than [`crate::MOST_PAGES`] pages are
    /// refused, and a range that passes 2^64; it may end there.
    pub fn census(&self, ram: &Ram, first: u64, pages: u64) -> Result<Census, Stop> {
        let found = self.core.census(ram.base, ram.bytes, first, pages);
        match found.reply {
            Reply::Refused(n) => Err(Stop::of(n.into(), Access::Read, first)),
            _ => Ok(Census::of(&found.counts)),
        }
    }

    /// Write a system register by its key ([`crate::registers`]): the register's mask applies, and the cache forgets
    /// what the write unsettles.
    pub fn write_register(&mut self, key: impl Into<Key>, value: u64) -> Result<(), Stop> {
        let number = settings::register(&mut self.core, key.into().into(), value);
        self.done(number)
    }

    /// Set the present exception level.
    #[inline(always)]
    pub fn set_level(&mut self, level: impl Into<Level>) -> Result<(), Stop> {
        let number = settings::level(&mut self.core, level.into().into());
        self.done(number)
    }

    /// Mark the accesses that follow as unprivileged (LDTR and STTR), or not.
    #[inline(always)]
    pub fn set_unprivileged(&mut self, on: bool) -> Result<(), Stop> {
        let number = settings::mark(&mut self.core, on.into());
        self.done(number)
    }

    /// Set a general register, X0 to X30; 31 is the zero register and takes nothing.
    #[inline(always)]
    pub fn set_general(&mut self, number: u64, value: u64) -> Result<(), Stop> {
        let number = settings::general(&mut self.core, number, value);
        self.done(number)
    }

    /// Take an exception: it is routed by SCR_EL3 and HCR_EL2; ELR, SPSR, ESR and FAR are written, the level and the
    /// PC are those of the vector.
    pub fn take(&mut self, exception: &Exception) -> Result<(), Stop> {
        let number = settings::abort(&mut self.core, exception.known());
        self.done(number)
    }
}
