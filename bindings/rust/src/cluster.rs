//! Four cores over one RAM.
use crate::answer::{Check, Report, Stop};
use crate::census::Census;
use crate::core::Core;
use crate::memory::Memory;
use crate::operation::{Access, Exception, Level, Status, View, Width};
use crate::ram::Ram;
use crate::registers::Key;
use crate::stage1::cpu::check;
use crate::stage1::flip::FlippedBit;
use crate::system_operation::SystemOperation;
use crate::view::Flags;
use crate::windows::{WindowList, WindowsError};

#[cfg(all(test, feature = "alloc"))]
mod tests;

/// Four cores, numbers 0 to 3, each with registers and a cache of its own. The RAM is lent to each call.
///
/// A method that is named as one of [`Core`]'s takes the number first, and is that method of this core. A number above 3
/// is refused with [`Check::Core`] before every other check. What the core has pending after a call, as it has after a
/// TLBI of the Inner Shareable forms, the other three carry out, as by [`Core::receive`], and it is pending no more: both
/// before the call returns. A TLBI with CRm 7 reaches no other core. A call that is refused, undefined or unimplemented
/// hands nothing on; a fault is no refusal. A census, windows and a flip are calls as the others are.
///
/// So nothing is pending between calls, unless a core is put in with it ([`Self::put`]): it is then handed on by that
/// core's next call that is not refused.
///
/// It is 163 KB by value, to be boxed where it shall not move. Threads that share one take turns, each for a call.
///
/// ```
/// use a72::{registers, Check, Cluster, Level, Ram, Stop, SystemOperation, Width};
///
/// let mut bytes = vec![0; 0x10_0000];
/// let mut ram = Ram::new(0x4000_0000, &mut bytes);
/// ram.write_u64(0x4000_1000, 0x4000_2000 | 3); // level 1, entry 0: a table
/// ram.write_u64(0x4000_2000, 0x4000_3000 | 3); // level 2, entry 0: a table
/// ram.write_u64(0x4000_3008, 0x4000_8000 | 0x403); // level 3, entry 1: a page, accessed
/// ram.write_u64(0x4000_9000, 7);
///
/// let mut cluster = Box::new(Cluster::new());
/// for n in 0..4 {
///     cluster.write_register(n, registers::TCR_EL1, 25 | 2 << 30)?; // 39 bits, pages of 4 KiB
///     cluster.write_register(n, registers::TTBR0_EL1, 0x4000_1000)?;
///     cluster.write_register(n, registers::SCTLR_EL1, 1)?; // stage 1 on
///     cluster.set_level(n, Level::EL1)?;
/// }
///
/// // Core 1 reads a page, which core 0 then maps elsewhere: core 1 has it cached.
/// assert_eq!(cluster.load(1, &ram, 0x1000, Width::Word)?, 0);
/// ram.write_u64(0x4000_3008, 0x4000_9000 | 0x403);
/// cluster.set_general(0, 1, 1)?; // X1: page 1
/// cluster.system(0, &mut ram, SystemOperation::tlbi_vae1(1))?; // core 0 alone
/// assert_eq!(cluster.load(1, &ram, 0x1000, Width::Word)?, 0);
/// cluster.system(0, &mut ram, SystemOperation::tlbi_vae1is(1))?;
/// assert_eq!(cluster.load(1, &ram, 0x1000, Width::Word)?, 7);
/// assert_eq!(cluster.core(1)?.counters().drops, 1);
///
/// let stop = cluster.load(4, &ram, 0x1000, Width::Word);
/// assert_eq!(stop, Err(Stop::Refused(Check::Core)));
/// # Ok::<(), Stop>(())
/// ```
#[derive(Clone, Debug, Default, PartialEq, Eq)]
pub struct Cluster {
    cores: [Core; 4],
}

/// The place of the core of this number.
#[inline(always)]
fn place(n: u64) -> Result<usize, Check> {
    check::core(n).or(Err(Check::Core))
}

/// Whether a call was refused.
fn refuses<T>(answer: &Result<T, Stop>) -> bool {
    matches!(answer, Err(stop) if stop.refuses())
}

/// What core `i` has pending goes to the other three, as in `stage1::cluster`, to which the tests hold it; reports stay.
#[cold]
#[inline(never)]
fn deliver(cores: &mut [Core; 4], i: usize) {
    let Some(what) = cores[i].core.tlb.broadcast.take() else {
        return;
    };
    for (k, other) in cores.iter_mut().enumerate() {
        if k != i {
            other.core.tlb.invalidate(what);
        }
    }
}

/// The core, and what is done with each call of one.
impl Cluster {
    /// Four cores out of reset, each as [`Core::new`] makes one.
    pub fn new() -> Cluster {
        Cluster::default()
    }

    /// A core, to be read. A census and other looks at it alone hand nothing on.
    #[inline]
    pub fn core(&self, n: u64) -> Result<&Core, Check> {
        Ok(&self.cores[place(n)?])
    }

    /// A core in the place of that of this number: all that it holds, what is pending too. Nothing is handed on.
    pub fn put(&mut self, n: u64, core: &Core) -> Result<(), Check> {
        self.cores[place(n)?] = core.clone();
        Ok(())
    }

    /// What the last call on this core did ([`Core::report`]). What another's TLBI asked of it is no call.
    #[inline]
    pub fn report(&self, n: u64) -> Result<Report, Check> {
        Ok(self.core(n)?.report())
    }

    /// A call that may leave something pending; its answer says whether it was refused.
    #[inline(always)]
    fn shared<T>(
        &mut self,
        i: usize,
        call: impl FnOnce(&mut Core) -> T,
        refused: impl FnOnce(&T) -> bool,
    ) -> T {
        let answer = call(&mut self.cores[i]);
        if self.cores[i].core.tlb.broadcast.is_some() && !refused(&answer) {
            deliver(&mut self.cores, i);
        }
        answer
    }

    #[cold]
    #[inline(never)]
    fn marked<T>(
        &mut self,
        i: usize,
        call: impl FnOnce(&mut Core) -> T,
        refused: impl FnOnce(&T) -> bool,
    ) -> T {
        self.shared(i, call, refused)
    }

    /// Any other call: only what was pending before it is pending after it, and nothing is unless a core was put in so.
    #[inline(always)]
    fn on<T>(&mut self, i: usize, call: impl FnOnce(&mut Core) -> T, refused: impl FnOnce(&T) -> bool) -> T {
        if self.cores[i].core.tlb.broadcast.is_none() {
            return call(&mut self.cores[i]);
        }
        self.marked(i, call, refused)
    }

    /// A call of the core of this number, if it is one, but a system operation.
    #[inline(always)]
    fn call<T>(&mut self, n: u64, call: impl FnOnce(&mut Core) -> Result<T, Stop>) -> Result<T, Stop> {
        self.on(place(n)?, call, refuses)
    }

    /// A translation at hand, of which there may be none.
    #[inline(always)]
    fn at_hand<T>(&mut self, n: u64, call: impl FnOnce(&mut Core) -> Option<T>) -> Option<T> {
        self.on(place(n).ok()?, call, Option::is_none)
    }

    /// A part of a core that is set by hand.
    #[inline(always)]
    fn set(&mut self, n: u64, set: impl FnOnce(&mut Core)) -> Result<(), Check> {
        set(&mut self.cores[place(n)?]);
        Ok(())
    }
}

/// The calls.
impl Cluster {
    /// [`Core::translate`].
    #[inline(always)]
    pub fn translate(&mut self, n: u64, ram: &Ram, va: u64, access: Access) -> Result<u64, Stop> {
        self.call(n, move |core| core.translate(ram, va, access))
    }

    /// [`Core::translate_at_hand`]; `None` too where no core has the number.
    #[inline(always)]
    pub fn translate_at_hand(&mut self, n: u64, va: u64, access: Access) -> Option<Result<u64, Status>> {
        self.at_hand(n, move |core| core.translate_at_hand(va, access))
    }

    /// [`Core::fetch_at_hand`]; `None` too where no core has the number.
    #[inline(always)]
    pub fn fetch_at_hand(&mut self, n: u64, va: u64) -> Option<Result<u64, Status>> {
        self.at_hand(n, move |core| core.fetch_at_hand(va))
    }

    /// [`Core::data_pa`].
    #[inline(always)]
    pub fn data_pa(&mut self, n: u64, ram: &Ram, va: u64) -> Result<Option<u64>, Stop> {
        self.call(n, move |core| core.data_pa(ram, va))
    }

    /// [`Core::fetch_pa`].
    #[inline(always)]
    pub fn fetch_pa(&mut self, n: u64, ram: &Ram, va: u64) -> Result<Option<u64>, Stop> {
        self.call(n, move |core| core.fetch_pa(ram, va))
    }

    /// [`Core::load`].
    #[inline(always)]
    pub fn load(&mut self, n: u64, ram: &Ram, va: u64, width: Width) -> Result<u64, Stop> {
        self.call(n, move |core| core.load(ram, va, width))
    }

    /// [`Core::load_bytes`].
    #[inline]
    pub fn load_bytes(&mut self, n: u64, ram: &Ram, va: u64, size: u64) -> Result<u64, Stop> {
        self.call(n, move |core| core.load_bytes(ram, va, size))
    }

    /// [`Core::load_from`].
    #[inline]
    pub fn load_from(
        &mut self,
        n: u64,
        memory: &mut (impl Memory + ?Sized),
        va: u64,
        width: Width,
    ) -> Result<u64, Stop> {
        self.call(n, move |core| core.load_from(memory, va, width))
    }

    /// [`Core::store`].
    #[inline(always)]
    pub fn store(&mut self, n: u64, ram: &mut Ram, va: u64, width: Width, value: u64) -> Result<(), Stop> {
        self.call(n, move |core| core.store(ram, va, width, value))
    }

    /// [`Core::store_bytes`].
    #[inline]
    pub fn store_bytes(&mut self, n: u64, ram: &mut Ram, va: u64, size: u64, value: u64) -> Result<(), Stop> {
        self.call(n, move |core| core.store_bytes(ram, va, size, value))
    }

    /// [`Core::store_to`].
    #[inline]
    pub fn store_to(
        &mut self,
        n: u64,
        memory: &mut (impl Memory + ?Sized),
        va: u64,
        width: Width,
        value: u64,
    ) -> Result<(), Stop> {
        self.call(n, move |core| core.store_to(memory, va, width, value))
    }

    /// [`Core::fetch`].
    #[inline(always)]
    pub fn fetch(&mut self, n: u64, ram: &Ram, va: u64) -> Result<u32, Stop> {
        self.call(n, move |core| core.fetch(ram, va))
    }

    /// [`Core::fetch_from`].
    #[inline]
    pub fn fetch_from(&mut self, n: u64, memory: &mut (impl Memory + ?Sized), va: u64) -> Result<u32, Stop> {
        self.call(n, move |core| core.fetch_from(memory, va))
    }

    /// [`Core::system`].
    pub fn system(&mut self, n: u64, ram: &mut Ram, operation: SystemOperation) -> Result<(), Stop> {
        self.shared(place(n)?, move |core| core.system(ram, operation), refuses)
    }

    /// [`Core::system_on`].
    pub fn system_on(
        &mut self,
        n: u64,
        memory: &mut (impl Memory + ?Sized),
        operation: SystemOperation,
    ) -> Result<(), Stop> {
        self.shared(place(n)?, move |core| core.system_on(memory, operation), refuses)
    }

    /// [`Core::write_register`].
    pub fn write_register(&mut self, n: u64, key: impl Into<Key>, value: u64) -> Result<(), Stop> {
        self.call(n, move |core| core.write_register(key, value))
    }

    /// [`Core::set_level`].
    #[inline(always)]
    pub fn set_level(&mut self, n: u64, level: impl Into<Level>) -> Result<(), Stop> {
        self.call(n, move |core| core.set_level(level))
    }

    /// [`Core::set_unprivileged`].
    #[inline(always)]
    pub fn set_unprivileged(&mut self, n: u64, on: bool) -> Result<(), Stop> {
        self.call(n, move |core| core.set_unprivileged(on))
    }

    /// [`Core::set_general`].
    #[inline(always)]
    pub fn set_general(&mut self, n: u64, number: u64, value: u64) -> Result<(), Stop> {
        self.call(n, move |core| core.set_general(number, value))
    }

    /// [`Core::take`].
    pub fn take(&mut self, n: u64, exception: &Exception) -> Result<(), Stop> {
        self.call(n, move |core| core.take(exception))
    }

    /// [`Core::census`].
    pub fn census(&mut self, n: u64, ram: &Ram, first: u64, pages: u64) -> Result<Census, Stop> {
        self.call(n, move |core| core.census(ram, first, pages))
    }

    /// [`Core::windows`].
    pub fn windows(
        &mut self,
        n: u64,
        ram: &Ram,
        list: &WindowList,
    ) -> Result<Option<(usize, usize)>, WindowsError> {
        self.windows_of_bytes(n, ram, list.as_bytes())
    }

    /// [`Core::windows_of_bytes`]. Any error is a refusal.
    pub fn windows_of_bytes(
        &mut self,
        n: u64,
        ram: &Ram,
        list: &[u8],
    ) -> Result<Option<(usize, usize)>, WindowsError> {
        self.on(
            place(n)?,
            move |core| core.windows_of_bytes(ram, list),
            Result::is_err,
        )
    }

    /// [`Core::flip`].
    pub fn flip(
        &mut self,
        n: u64,
        ram: &mut Ram,
        va: u64,
        access: Access,
        view: View,
    ) -> Result<Option<FlippedBit>, Stop> {
        self.call(n, move |core| core.flip(ram, va, access, view))
    }
}

/// Parts that are set by hand: no calls, so that they hand nothing on.
impl Cluster {
    /// [`Core::set_pc`].
    #[inline]
    pub fn set_pc(&mut self, n: u64, pc: u64) -> Result<(), Check> {
        self.set(n, move |core| core.set_pc(pc))
    }

    /// [`Core::set_pstate`].
    #[inline]
    pub fn set_pstate(&mut self, n: u64, spsr: u64) -> Result<(), Check> {
        self.set(n, move |core| core.set_pstate(spsr))
    }

    /// [`Core::set_flags`].
    #[inline]
    pub fn set_flags(&mut self, n: u64, flags: Flags) -> Result<(), Check> {
        self.set(n, move |core| core.set_flags(flags))
    }

    /// [`Core::set_generation`].
    pub fn set_generation(&mut self, n: u64, generation: u32) -> Result<(), Check> {
        self.set(n, move |core| core.set_generation(generation))
    }
}
