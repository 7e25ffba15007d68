//! Four cores over one RAM.
use crate::core::{stop, Core};
use crate::held_cluster::HeldCluster;
use crate::library::Answer;
use crate::raw::cluster as raw;
use crate::windows;
use crate::words::of_exception;
use plain::number::{DONE, FAULT};
use plain::registers::Key;
use plain::{
    Access, Census, Check, Exception, Flags, FlippedBit, Level, Ram, Report, Status, Stop, SystemOperation,
    View, Width, WindowList, WindowsError,
};
use std::fmt::{self, Debug, Formatter};

/// Four cores, numbers 0 to 3, each with registers and a cache of its own, in 166,952 bytes of their own. The RAM is lent
/// to each call.
///
/// A method that is named as one of [`Core`]'s takes the number first, and is that method of this core. A number above 3
/// is refused with [`Check::Core`] before every other check. What the core has pending after a call, as it has after a
/// TLBI of the Inner Shareable forms, the other three carry out, as by [`Core::receive`], and it is pending no more: both
/// before the call returns. A TLBI with CRm 7 reaches no other core. A call that is refused, undefined or unimplemented
/// hands nothing on; a fault is no refusal. A census, windows and a flip are calls as the others are.
///
/// So nothing is pending between calls, unless a core is put in with it ([`Self::put`]): it is then handed on by that
/// core's next call that is not refused.
///
/// It is `Send`, and not `Sync`, as a [`Core`] is not.
///
/// ```compile_fail
/// fn shared<T: Sync>() {}
/// shared::<a72::Cluster>();
/// ```
pub struct Cluster {
    held: HeldCluster,
    reports: [Report; 4],
}

/// A clone holds the same, and has done nothing yet.
impl Clone for Cluster {
    fn clone(&self) -> Cluster {
        Cluster::of(self.held.clone())
    }
}

/// Two clusters are equal where their cores' words are.
impl PartialEq for Cluster {
    fn eq(&self, other: &Cluster) -> bool {
        self.cores() == other.cores()
    }
}

impl Eq for Cluster {}

impl Default for Cluster {
    fn default() -> Cluster {
        Cluster::new()
    }
}

/// In short, core by core.
impl Debug for Cluster {
    fn fmt(&self, f: &mut Formatter) -> fmt::Result {
        f.debug_struct("Cluster").field("cores", &self.cores()).finish()
    }
}

/// The check of a number that the library has just given where it wants no more than that of a core.
fn checked(number: u64) -> Result<(), Check> {
    match number {
        DONE => Ok(()),
        n => Err(Check::from_number(n).expect("the number of a check")),
    }
}

/// The core, and what is done with each call of one.
impl Cluster {
    fn of(held: HeldCluster) -> Cluster {
        let reports = [Report::default(); 4];
        Cluster { held, reports }
    }

    /// Four cores out of reset, each as [`Core::new`] makes one.
    pub fn new() -> Cluster {
        Cluster::of(HeldCluster::new())
    }

    /// A core, copied out. What is done to it is done to a core of its own.
    pub fn core(&self, n: u64) -> Result<Core, Check> {
        let mut core = Core::new();
        checked(self.held.get(n, &mut core.held))?;
        core.report = self.report(n)?;
        Ok(core)
    }

    fn cores(&self) -> [Core; 4] {
        [0, 1, 2, 3].map(|n| self.core(n).expect("one of the four"))
    }

    /// A core in the place of that of this number: all that it holds, what is pending too. Nothing is handed on.
    pub fn put(&mut self, n: u64, core: &Core) -> Result<(), Check> {
        checked(self.held.put(n, &core.held))?;
        self.keep(n, Report::default());
        Ok(())
    }

    /// What the last call on this core did ([`Core::report`]). What another's TLBI asked of it is no call.
    #[inline]
    pub fn report(&self, n: u64) -> Result<Report, Check> {
        let place = usize::try_from(n).ok();
        place
            .and_then(|i| self.reports.get(i).copied())
            .ok_or(Check::Core)
    }

    /// The report of a core, if there is one of this number.
    #[inline]
    fn keep(&mut self, n: u64, report: Report) {
        let place = usize::try_from(n).ok();
        if let Some(kept) = place.and_then(|i| self.reports.get_mut(i)) {
            *kept = report;
        }
    }

    /// An answer as it comes, its reads kept as the report.
    #[inline]
    fn kept(&mut self, n: u64, (number, Answer { value, reads }): (u64, Answer)) -> (u64, u64) {
        self.keep(n, Report { reads });
        (number, value)
    }

    /// The answer of a call that gives nothing but success, and reports nothing.
    #[inline]
    fn done(&mut self, n: u64, number: u64) -> Result<(), Stop> {
        self.keep(n, Report::default());
        match number {
            DONE => Ok(()),
            number => Err(stop(number, Access::Read, 0)),
        }
    }

    /// A part of a core that is set by hand: the core is copied out and in again.
    fn set(&mut self, n: u64, set: impl FnOnce(&mut Core)) -> Result<(), Check> {
        let mut core = self.core(n)?;
        set(&mut core);
        checked(self.held.put(n, &core.held))
    }
}

/// The calls.
impl Cluster {
    /// [`Core::translate`].
    #[inline]
    pub fn translate(&mut self, n: u64, ram: &Ram, va: u64, access: Access) -> Result<u64, Stop> {
        let answer = raw::translate(&mut self.held, n, va, access as u64, ram.base, ram.bytes);
        match self.kept(n, answer) {
            (DONE, pa) => Ok(pa),
            (number, _) => Err(stop(number, access, va)),
        }
    }

    /// The library has no call for what is at hand: `None`, and [`Cluster::translate`] does it all.
    pub fn translate_at_hand(&mut self, _n: u64, _va: u64, _access: Access) -> Option<Result<u64, Status>> {
        None
    }

    /// The same of [`Cluster::fetch`].
    pub fn fetch_at_hand(&mut self, _n: u64, _va: u64) -> Option<Result<u64, Status>> {
        None
    }

    /// [`Core::data_pa`].
    #[inline]
    pub fn data_pa(&mut self, n: u64, ram: &Ram, va: u64) -> Result<Option<u64>, Stop> {
        let answer = raw::data_pa(&mut self.held, n, va, ram.base, ram.bytes);
        match self.kept(n, answer) {
            (DONE, pa) => Ok(Some(pa)),
            (FAULT.., _) => Ok(None),
            (number, _) => Err(stop(number, Access::Read, va)),
        }
    }

    /// [`Core::fetch_pa`].
    #[inline]
    pub fn fetch_pa(&mut self, n: u64, ram: &Ram, va: u64) -> Result<Option<u64>, Stop> {
        let answer = raw::fetch_pa(&mut self.held, n, va, ram.base, ram.bytes);
        match self.kept(n, answer) {
            (DONE, pa) => Ok(Some(pa)),
            (FAULT.., _) => Ok(None),
            (number, _) => Err(stop(number, Access::Fetch, va)),
        }
    }

    /// [`Core::load`].
    #[inline]
    pub fn load(&mut self, n: u64, ram: &Ram, va: u64, width: Width) -> Result<u64, Stop> {
        self.load_bytes(n, ram, va, width as u64)
    }

    /// [`Core::load_bytes`].
    #[inline]
    pub fn load_bytes(&mut self, n: u64, ram: &Ram, va: u64, size: u64) -> Result<u64, Stop> {
        let answer = raw::load(&mut self.held, n, va, size, ram.base, ram.bytes);
        match self.kept(n, answer) {
            (DONE, v) => Ok(v),
            (number, address) => Err(stop(number, Access::Read, address)),
        }
    }

    /// [`Core::store`].
    #[inline]
    pub fn store(&mut self, n: u64, ram: &mut Ram, va: u64, width: Width, value: u64) -> Result<(), Stop> {
        self.store_bytes(n, ram, va, width as u64, value)
    }

    /// [`Core::store_bytes`].
    #[inline]
    pub fn store_bytes(&mut self, n: u64, ram: &mut Ram, va: u64, size: u64, value: u64) -> Result<(), Stop> {
        let answer = raw::store(&mut self.held, n, va, size, value, ram.base, ram.bytes);
        match self.kept(n, answer) {
            (DONE, _) => Ok(()),
            (number, address) => Err(stop(number, Access::Write, address)),
        }
    }

    /// [`Core::fetch`].
    #[inline]
    pub fn fetch(&mut self, n: u64, ram: &Ram, va: u64) -> Result<u32, Stop> {
        let answer = raw::fetch(&mut self.held, n, va, ram.base, ram.bytes);
        match self.kept(n, answer) {
            (DONE, instruction) => Ok(instruction as u32),
            (number, _) => Err(stop(number, Access::Fetch, va)),
        }
    }

    /// [`Core::system`].
    pub fn system(&mut self, n: u64, ram: &mut Ram, operation: SystemOperation) -> Result<(), Stop> {
        let SystemOperation {
            op1,
            crn,
            crm,
            op2,
            rt,
        } = operation;
        let fields = [op1, crn, crm, op2, rt];
        let answer = raw::system(&mut self.held, n, fields, ram.base, ram.bytes);
        match self.kept(n, answer) {
            (DONE, _) => Ok(()),
            (number, address) => Err(stop(number, Access::Write, address)),
        }
    }

    /// [`Core::write_register`].
    pub fn write_register(&mut self, n: u64, key: impl Into<Key>, value: u64) -> Result<(), Stop> {
        let number = raw::register(&mut self.held, n, key.into().into(), value);
        self.done(n, number)
    }

    /// [`Core::set_level`].
    pub fn set_level(&mut self, n: u64, level: impl Into<Level>) -> Result<(), Stop> {
        let number = raw::level(&mut self.held, n, level.into().into());
        self.done(n, number)
    }

    /// [`Core::set_unprivileged`].
    pub fn set_unprivileged(&mut self, n: u64, on: bool) -> Result<(), Stop> {
        let number = raw::mark(&mut self.held, n, on.into());
        self.done(n, number)
    }

    /// [`Core::set_general`].
    pub fn set_general(&mut self, n: u64, number: u64, value: u64) -> Result<(), Stop> {
        let number = raw::general(&mut self.held, n, number, value);
        self.done(n, number)
    }

    /// [`Core::take`].
    pub fn take(&mut self, n: u64, exception: &Exception) -> Result<(), Stop> {
        let number = raw::abort(&mut self.held, n, &of_exception(exception));
        self.done(n, number)
    }

    /// [`Core::census`].
    pub fn census(&mut self, n: u64, ram: &Ram, first: u64, pages: u64) -> Result<Census, Stop> {
        match raw::census(&mut self.held, n, first, pages, ram.base, ram.bytes) {
            (DONE, counts) => Ok(Census::of(&counts)),
            (number, _) => Err(stop(number, Access::Read, first)),
        }
    }

    /// [`Core::windows`].
    pub fn windows(
        &mut self,
        n: u64,
        ram: &Ram,
        list: &WindowList,
    ) -> Result<Option<(usize, usize)>, WindowsError> {
        self.windows_of_bytes(n, ram, list.as_bytes())
    }

    /// [`Core::windows_of_bytes`]. Any error is a refusal.
    pub fn windows_of_bytes(
        &mut self,
        n: u64,
        ram: &Ram,
        list: &[u8],
    ) -> Result<Option<(usize, usize)>, WindowsError> {
        windows::found(raw::windows(&mut self.held, n, list, ram.base, ram.bytes), list)
    }

    /// [`Core::flip`].
    pub fn flip(
        &mut self,
        n: u64,
        ram: &mut Ram,
        va: u64,
        access: Access,
        view: View,
    ) -> Result<Option<FlippedBit>, Stop> {
        match raw::flip(
            &mut self.held,
            n,
            va,
            access as u64,
            view as u64,
            ram.base,
            ram.bytes,
        ) {
            (DONE, [found, pa, bit]) => Ok((found == 1).then_some(FlippedBit { pa, bit: bit as u8 })),
            (number, _) => Err(stop(number, access, va)),
        }
    }
}

/// Parts that are set by hand: no calls, so that they hand nothing on. The library has no function for them: the core is
/// copied out and in again.
impl Cluster {
    /// [`Core::set_pc`].
    pub fn set_pc(&mut self, n: u64, pc: u64) -> Result<(), Check> {
        self.set(n, |core| core.set_pc(pc))
    }

    /// [`Core::set_pstate`].
    pub fn set_pstate(&mut self, n: u64, spsr: u64) -> Result<(), Check> {
        self.set(n, |core| core.set_pstate(spsr))
    }

    /// [`Core::set_flags`].
    pub fn set_flags(&mut self, n: u64, flags: Flags) -> Result<(), Check> {
        self.set(n, |core| core.set_flags(flags))
    }

    /// [`Core::set_generation`].
    pub fn set_generation(&mut self, n: u64, generation: u32) -> Result<(), Check> {
        self.set(n, |core| core.set_generation(generation))
    }
}
