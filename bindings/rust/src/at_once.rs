//! Loads, stores and fetches, each in two parts: what a hint serves at once, and the rest, which is jumped to, so that a hint
//! pays nothing for it. The parts are functions of `stage1::quick`, put together as `load`, `store` and `fetch` are there.
use crate::answer::Stop;
use crate::core::Core;
use crate::number::DONE;
use crate::operation::Access;
use crate::ram::Ram;
use crate::stage1::cpu::place;
use crate::stage1::quick::instance::Datum;
use crate::stage1::quick::{fetch, hint, load, store};
use crate::stage1::tlb::work::Work;

/// Whether a window ends at 2^64 or past it: the checks by name decide.
#[inline(always)]
fn ends_late(ram: &Ram) -> bool {
    u64::MAX - (ram.bytes.len() as u64) < ram.base
}

impl Core {
    /// The end of a load.
    #[inline(always)]
    fn loaded(&mut self, number: u64) -> Result<u64, Stop> {
        match number {
            DONE => Ok(self.answer.value),
            n => Err(self.stop(n, Access::Read, self.answer.value)),
        }
    }

    /// A load of one width.
    #[inline(always)]
    pub(crate) fn load_as<W: Datum>(&mut self, ram: &Ram, va: u64) -> Result<u64, Stop> {
        if place::in_page(va) < W::WIDTH.bytes() {
            return self.load_pages::<W>(ram, va);
        }
        let (kind, len) = (Access::Read as u64, ram.bytes.len() as u64);
        match hint::served(&self.core, va, kind, ram.base, len) {
            Some(pa) => {
                let (core, answer, none) = (&mut self.core, &mut self.answer, Work::none());
                let number = load::ended::<W>(core, va, Ok(pa), none, answer, ram.base, ram.bytes);
                self.loaded(number)
            }
            None => self.load_rest::<W>(ram, va),
        }
    }

    /// Of two pages, with the checks.
    #[inline(never)]
    fn load_pages<W: Datum>(&mut self, ram: &Ram, va: u64) -> Result<u64, Stop> {
        let (core, answer) = (&mut self.core, &mut self.answer);
        let number = load::pages::<W>(core, va, answer, ram.base, ram.bytes);
        self.loaded(number)
    }

    #[inline(never)]
    fn load_rest<W: Datum>(&mut self, ram: &Ram, va: u64) -> Result<u64, Stop> {
        let (core, answer) = (&mut self.core, &mut self.answer);
        let number = if 3 < core.privilege.level || ends_late(ram) {
            load::checked(core, va, W::WIDTH.bytes(), answer, ram.base, ram.bytes)
        } else {
            load::past_hint::<W>(core, va, answer, ram.base, ram.bytes)
        };
        self.loaded(number)
    }

    /// A load of any size: the checks by name.
    #[cold]
    pub(crate) fn load_checked(&mut self, ram: &Ram, va: u64, size: u64) -> Result<u64, Stop> {
        let number = load::checked(&mut self.core, va, size, &mut self.answer, ram.base, ram.bytes);
        self.loaded(number)
    }

    /// The end of a store.
    #[inline(always)]
    fn stored(&mut self, number: u64) -> Result<(), Stop> {
        match number {
            DONE => Ok(()),
            n => Err(self.stop(n, Access::Write, self.answer.value)),
        }
    }

    /// A store of one width.
    #[inline(always)]
    pub(crate) fn store_as<W: Datum>(&mut self, ram: &mut Ram, va: u64, value: u64) -> Result<(), Stop> {
        if place::in_page(va) < W::WIDTH.bytes() {
            return self.store_pages::<W>(ram, va, value);
        }
        let (kind, len) = (Access::Write as u64, ram.bytes.len() as u64);
        match hint::served(&self.core, va, kind, ram.base, len) {
            Some(pa) => {
                let (core, answer, none) = (&mut self.core, &mut self.answer, Work::none());
                let number = store::ended::<W>(core, va, Ok(pa), none, value, answer, ram.base, ram.bytes);
                self.stored(number)
            }
            None => self.store_rest::<W>(ram, va, value),
        }
    }

    /// Of two pages, with the checks.
    #[inline(never)]
    fn store_pages<W: Datum>(&mut self, ram: &mut Ram, va: u64, value: u64) -> Result<(), Stop> {
        let (core, answer) = (&mut self.core, &mut self.answer);
        let number = store::pages::<W>(core, va, value, answer, ram.base, ram.bytes);
        self.stored(number)
    }

    #[inline(never)]
    fn store_rest<W: Datum>(&mut self, ram: &mut Ram, va: u64, value: u64) -> Result<(), Stop> {
        let (core, answer) = (&mut self.core, &mut self.answer);
        let number = if 3 < core.privilege.level || ends_late(ram) {
            store::checked(core, va, W::WIDTH.bytes(), value, answer, ram.base, ram.bytes)
        } else {
            store::past_hint::<W>(core, va, value, answer, ram.base, ram.bytes)
        };
        self.stored(number)
    }

    /// A store of any size: the checks by name.
    #[cold]
    pub(crate) fn store_checked(
        &mut self,
        ram: &mut Ram,
        va: u64,
        size: u64,
        value: u64,
    ) -> Result<(), Stop> {
        let (core, answer) = (&mut self.core, &mut self.answer);
        let number = store::checked(core, va, size, value, answer, ram.base, ram.bytes);
        self.stored(number)
    }

    /// Where the fetch hint sends a fetch that needs no check by name.
    #[inline(always)]
    fn fetch_hinted(&self, ram: &Ram, va: u64) -> Option<u64> {
        let level = self.core.privilege.level;
        if 3 < level || ends_late(ram) || self.core.tlb.fetch.is_none() {
            return None;
        }
        self.core.tlb.by_fetch_hint(level, va)
    }

    /// A fetch, or where it goes, that no hint serves at once.
    #[inline(always)]
    fn fetch_rest<const INSN: bool>(&mut self, ram: &Ram, va: u64) -> u64 {
        let (core, answer) = (&mut self.core, &mut self.answer);
        if 3 < core.privilege.level || ends_late(ram) {
            fetch::checked::<INSN>(core, va, answer, ram.base, ram.bytes)
        } else {
            fetch::past_hint::<INSN>(core, va, answer, ram.base, ram.bytes)
        }
    }

    /// The end of a fetch.
    #[inline(always)]
    fn fetched(&mut self, va: u64, number: u64) -> Result<u32, Stop> {
        match number {
            DONE => Ok(self.answer.value as u32),
            n => Err(self.stop(n, Access::Fetch, va)),
        }
    }

    #[cold]
    #[inline(never)]
    fn instruction_rest(&mut self, ram: &Ram, va: u64) -> Result<u32, Stop> {
        let number = self.fetch_rest::<true>(ram, va);
        self.fetched(va, number)
    }

    /// The instruction at `va`.
    #[inline(always)]
    pub fn fetch(&mut self, ram: &Ram, va: u64) -> Result<u32, Stop> {
        match self.fetch_hinted(ram, va) {
            Some(pa) => {
                let (core, answer, none) = (&mut self.core, &mut self.answer, Work::none());
                let number = fetch::ended::<true>(core, va, Ok(pa), none, answer, ram.base, ram.bytes);
                self.fetched(va, number)
            }
            None => self.instruction_rest(ram, va),
        }
    }

    /// The number alone, since it is handed over as it comes.
    #[cold]
    #[inline(never)]
    fn address_rest(&mut self, ram: &Ram, va: u64) -> u64 {
        self.fetch_rest::<false>(ram, va)
    }

    /// Where an instruction fetch from `va` would go; `None` where it would fault.
    #[inline(always)]
    pub fn fetch_pa(&mut self, ram: &Ram, va: u64) -> Result<Option<u64>, Stop> {
        if let Some(pa) = self.fetch_hinted(ram, va) {
            self.answer.reads = 0;
            return Ok(Some(pa));
        }
        let number = self.address_rest(ram, va);
        self.reached(number, Access::Fetch, va)
    }
}
