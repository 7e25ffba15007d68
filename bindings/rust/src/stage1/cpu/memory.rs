// Written by tools/plain from crates/cpu/src/memory.rt: change that.
//! The core's operations on memory. The descriptors that an operation reads are added to its `work`.

use crate::stage1::cpu::place::{FaultAt, Outside, Pages, Place};
use crate::stage1::cpu::{Core, bytes, place};
use crate::stage1::exception::kind::{DataAbort, Exception, InsnAbort, Stop};
use crate::stage1::fault::Fault;
use crate::stage1::sysreg::regs::Regime;
use crate::stage1::tlb::access::{Kind, Request};
use crate::stage1::tlb::hint::FetchHint;
use crate::stage1::tlb::work::Work;
use crate::stage1::walk::fsc::FSC_EXTERNAL;
use crate::stage1::walk::regime::Bank;
use crate::stage1::word::ram::Width;

/// An external abort's.
#[inline]
fn external() -> Fault {
    crate::stage1::fault::first(FSC_EXTERNAL)
}

#[inline]
fn data_abort(addr: u64, write: bool, fault: Fault) -> Stop {
    Stop::Exception(Exception::DataAbort(DataAbort { addr, write, fault }))
}

impl Core {
    /// An access as the core makes it. The level is read once, for the regime's registers and for the rights.
    #[inline(always)]
    fn request(&self, va: u64, kind: Kind) -> Request {
        let privilege = self.privilege;
        let bank = Bank::new(&self.control, Regime::of_level(privilege.level));
        Request {
            bank,
            privilege,
            va,
            kind,
        }
    }

    /// The answer of a translation that no hint serves, where no walk is needed. RAM is read by no code here.
    #[inline(always)]
    pub fn at_hand(&mut self, base: u64, ram: &[u8], va: u64, kind: Kind) -> Option<Result<u64, Fault>> {
        let a = self.request(va, kind);
        self.tlb.at_hand(a, base, ram)
    }

    /// A translation by a walk: where one is needed, the translation.
    #[inline(always)]
    pub fn by_walk(
        &mut self,
        base: u64,
        ram: &[u8],
        va: u64,
        kind: Kind,
        work: &mut Work,
    ) -> Result<u64, Fault> {
        let a = self.request(va, kind);
        self.tlb.by_walk(a, base, ram, work)
    }

    /// A translation that no hint serves. Out of line, and reads the registers itself, so that a hint pays nothing for
    /// it.
    #[inline(never)]
    fn translate_slow(
        &mut self,
        base: u64,
        ram: &[u8],
        va: u64,
        kind: Kind,
        work: &mut Work,
    ) -> Result<u64, Fault> {
        match self.at_hand(base, ram, va, kind) {
            Some(answer) => answer,
            None => self.by_walk(base, ram, va, kind, work),
        }
    }

    /// Where an access of the kind to va goes: the data hint first, which is asked once. The fetch hint is neither used
    /// nor set.
    #[inline]
    pub fn translate(
        &mut self,
        base: u64,
        ram: &[u8],
        va: u64,
        kind: Kind,
        work: &mut Work,
    ) -> Result<u64, Fault> {
        match self.tlb.by_hint(self.privilege, va, kind) {
            Some(pa) => Ok(pa),
            None => self.translate_slow(base, ram, va, kind, work),
        }
    }

    /// The translation that a fetch begins with: by the fetch hint, and else one that leaves it.
    #[inline]
    pub fn translate_fetch(&mut self, base: u64, ram: &[u8], va: u64, work: &mut Work) -> Result<u64, Fault> {
        if let Some(pa) = self.tlb.by_fetch_hint(self.privilege.level, va) {
            return Ok(pa);
        }
        let pa = self.translate_slow(base, ram, va, Kind::Fetch, work)?;
        self.tlb.fetch = Some(FetchHint::new(va, self.privilege.level, pa));
        Ok(pa)
    }

    /// The translations of an access, before a byte moves: one, or two where it crosses a page. The first one's effects
    /// remain where the second faults.
    #[inline(always)]
    pub fn translate_access(
        &mut self,
        base: u64,
        ram: &[u8],
        va: u64,
        width: Width,
        kind: Kind,
        work: &mut Work,
    ) -> Result<Place, FaultAt> {
        let on = self.bank().stage1_on(self.regime());
        let first = self.translate(base, ram, va, kind, work);
        let pa = first.map_err(|fault| FaultAt {
            addr: va,
            fault,
            first: None,
        })?;
        if !place::crosses(on, va, width.bytes()) {
            return Ok(Place::Whole(pa));
        }
        let next = place::next_page(va);
        let second = self.translate(base, ram, next, kind, work);
        let pa2 = second.map_err(|fault| FaultAt {
            addr: next,
            fault,
            first: Some(pa),
        })?;
        let in_page = place::in_page(va);
        Ok(Place::Split(Pages { in_page, pa, pa2 }))
    }

    /// The value of a width's bytes from va on. `last_pa` is the first byte's physical address once the translations
    /// have succeeded, also where the load then aborts. An error is a data abort of a read: a fault of its page, or an
    /// external abort at the lowest byte outside RAM, whose physical address `abort_pa` then is.
    #[inline]
    pub fn read(
        &mut self,
        base: u64,
        ram: &[u8],
        va: u64,
        width: Width,
        work: &mut Work,
    ) -> Result<u64, Stop> {
        let place = match self.translate_access(base, ram, va, width, Kind::Read, work) {
            Ok(place) => place,
            Err(at) => return Err(self.failed(base, ram, va, at, false)),
        };
        self.last_pa = place.first_pa();
        match bytes::load(base, ram, place, width) {
            Ok(v) => Ok(v),
            Err(out) => Err(self.external_abort(out, va, false)),
        }
    }

    /// A store of the low bytes of a value. A split one keeps the bytes before the lowest outside RAM. An error is a
    /// data abort of a write, as a load's.
    #[inline]
    pub fn write(
        &mut self,
        base: u64,
        ram: &mut [u8],
        va: u64,
        width: Width,
        value: u64,
        work: &mut Work,
    ) -> Result<(), Stop> {
        let place = match self.translate_access(base, ram, va, width, Kind::Write, work) {
            Ok(place) => place,
            Err(at) => return Err(self.failed(base, ram, va, at, true)),
        };
        match bytes::store(base, ram, place, width, value) {
            Ok(()) => Ok(()),
            Err(out) => Err(self.external_abort(out, va, true)),
        }
    }

    /// A translation of the access to va faulted. The lowest failing byte decides: one of the first page that lies
    /// outside RAM comes before a fault of the second.
    #[inline]
    fn failed(&mut self, base: u64, ram: &[u8], va: u64, at: FaultAt, write: bool) -> Stop {
        match place::first_part(base, ram.len() as u64, va, at.first) {
            Ok(()) => data_abort(at.addr, write, at.fault),
            Err(out) => self.external_abort(out, va, write),
        }
    }

    /// The access to va aborted at the byte that is outside: record where and say so.
    #[inline]
    fn external_abort(&mut self, out: Outside, va: u64, write: bool) -> Stop {
        self.abort_pa = out.pa;
        data_abort(va.wrapping_add(out.index), write, external())
    }

    /// The instruction at va, by the fetch hint first: four bytes, never split. An error is an instruction abort at va.
    #[inline]
    pub fn fetch(&mut self, base: u64, ram: &[u8], va: u64, work: &mut Work) -> Result<u32, Exception> {
        let at = self.translate_fetch(base, ram, va, work);
        let pa = at.map_err(|fault| Exception::InsnAbort(InsnAbort { addr: va, fault }))?;
        match bytes::insn_at(base, ram, pa) {
            Some(insn) => Ok(insn),
            None => Err(self.fetch_abort(pa, va)),
        }
    }

    /// The instruction fetch aborted on the bus: record where and say so.
    #[inline]
    fn fetch_abort(&mut self, pa: u64, va: u64) -> Exception {
        self.abort_pa = pa;
        Exception::InsnAbort(InsnAbort {
            addr: va,
            fault: external(),
        })
    }

    /// Where a fetch of va goes, by the same hint, which a new page refreshes.
    #[inline]
    pub fn fetch_pa(&mut self, base: u64, ram: &[u8], va: u64, work: &mut Work) -> Option<u64> {
        self.translate_fetch(base, ram, va, work).ok()
    }

    /// Where a data read of va goes.
    #[inline]
    pub fn data_pa(&mut self, base: u64, ram: &[u8], va: u64, work: &mut Work) -> Option<u64> {
        self.translate(base, ram, va, Kind::Read, work).ok()
    }
}
