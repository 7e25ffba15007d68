//! What answers at physical addresses: RAM, in a window and in regions beside it, and devices.
use crate::answer::{Fault, Stop};
use crate::core::Core;
use crate::operation::{Status, Width};
use crate::ram::Ram;
use crate::stage1::cpu::place::{self, Pages};
use crate::system_operation::SystemOperation;

/// All that answers at physical addresses: the window of RAM in which tables are walked, further regions of RAM, and
/// the devices outside both.
///
/// A load, store or fetch of one page lies in RAM, each byte in the window or in a region, or no byte of it does, and it is
/// a device's: what is neither is an abort of status 0x10. Of an access over two pages, with stage 1 on, each byte lies in
/// RAM; no device is asked for one, and the lowest byte that lies in none is the abort's. DC ZVA ([`Core::system_on`])
/// zeroes a line of RAM.
///
/// Tables are walked in the window alone: one that lies elsewhere ends the walk in 0x14 to 0x17. Which region is the
/// window [`Memory::ram`] says anew for each operation.
pub trait Memory {
    /// The window of RAM.
    fn ram(&mut self) -> Ram<'_>;

    /// The region of RAM that holds this byte, which lies outside the window; `None` where it is a device's, or nobody's.
    fn region(&mut self, address: u64) -> Option<Ram<'_>> {
        let _ = address;
        None
    }

    /// A read at a physical address, all of it outside RAM; `None` where nothing answers: the access is an external
    /// abort.
    fn read(&mut self, address: u64, width: Width) -> Option<u64>;

    /// A write of the low bytes of a value at a physical address, all of it outside RAM; whether anything took it.
    fn write(&mut self, address: u64, width: Width, value: u64) -> bool;
}

/// RAM alone: nothing answers outside.
impl Memory for Ram<'_> {
    #[inline]
    fn ram(&mut self) -> Ram<'_> {
        Ram::new(self.base, self.bytes)
    }

    fn read(&mut self, _: u64, _: Width) -> Option<u64> {
        None
    }

    fn write(&mut self, _: u64, _: Width, _: u64) -> bool {
        false
    }
}

/// Banks of RAM alone: the first is the window, in which tables lie, and the others are regions.
impl Memory for [Ram<'_>] {
    fn ram(&mut self) -> Ram<'_> {
        match self {
            [window, ..] => Ram::new(window.base, window.bytes),
            [] => Ram::new(0, &mut []),
        }
    }

    fn region(&mut self, address: u64) -> Option<Ram<'_>> {
        let bank = self.iter_mut().skip(1).find(|bank| bank.holds(address))?;
        Some(Ram::new(bank.base, bank.bytes))
    }

    fn read(&mut self, _: u64, _: Width) -> Option<u64> {
        None
    }

    fn write(&mut self, _: u64, _: Width, _: u64) -> bool {
        false
    }
}

/// The status of an access that no RAM answers.
pub(crate) const EXTERNAL: Status = Status(0x10);

/// Where the bytes of an access of one page lie, which stopped since the window has not all of them.
enum Whose<'a> {
    /// All in one region.
    Region(&'a mut [u8]),
    /// All in RAM: in regions that adjoin, or in the window and one.
    Ram(Pages),
    /// No byte in RAM: it is a device's.
    Device,
    /// Some in RAM, and some not: it is nobody's.
    Nobody,
}

fn whose(memory: &mut (impl Memory + ?Sized), pa: u64, width: Width) -> Whose<'_> {
    let size = width as u64;
    let held = |ram: &Ram<'_>, i| ram.holds(pa.wrapping_add(i));
    let window = memory.ram();
    let apart = !(0..size).any(|i| held(&window, i));
    if apart
        && memory
            .region(pa)
            .is_some_and(|region| (0..size).all(|i| held(&region, i)))
    {
        return match memory.region(pa).and_then(|region| region.part(pa, size)) {
            Some(bytes) => Whose::Region(bytes),
            None => Whose::Nobody,
        };
    }
    if apart && !(0..size).any(|i| memory.region(pa.wrapping_add(i)).is_some()) {
        return Whose::Device;
    }
    let pages = Pages::one(pa, size);
    match pages.lacking(memory, 0..size) {
        None => Whose::Ram(pages),
        Some(_) => Whose::Nobody,
    }
}

/// The little-endian value of at most eight bytes.
fn value_of(bytes: &[u8]) -> u64 {
    let mut word = [0; 8];
    word[..bytes.len()].copy_from_slice(bytes);
    u64::from_le_bytes(word)
}

/// Whether what stops an operation is that a byte lies outside RAM.
fn is_external(stop: Stop) -> bool {
    matches!(stop, Stop::Fault(fault) if fault.status == EXTERNAL)
}

impl Core {
    /// Whether a load or store takes two pages: with stage 1 off none does.
    fn is_split(&self, va: u64, width: Width) -> bool {
        let on = self.core.bank().stage1_on(self.core.regime());
        place::crosses(on, va, width as u64)
    }

    /// [`Core::load`] from RAM, or from the device that answers. Where the window has not all bytes, [`Core::abort_pa`] is
    /// afterwards the first byte's address; over two pages that of the lowest byte outside the window, and of an abort
    /// that of the lowest which no RAM holds. Where the second page faults, the former stays.
    #[inline]
    pub fn load_from(
        &mut self,
        memory: &mut (impl Memory + ?Sized),
        va: u64,
        width: Width,
    ) -> Result<u64, Stop> {
        self.load(&memory.ram(), va, width)
            .or_else(|stop| self.load_outside(memory, va, width, stop))
    }

    #[cold]
    fn load_outside(
        &mut self,
        memory: &mut (impl Memory + ?Sized),
        va: u64,
        width: Width,
        stop: Stop,
    ) -> Result<u64, Stop> {
        if !is_external(stop) {
            return Err(stop);
        }
        if self.is_split(va, width) {
            return match memory.region(self.abort_pa()) {
                Some(_) => self.load_over_two(memory, va, width),
                None => Err(stop),
            };
        }
        self.read_outside(memory, width, stop)
    }

    /// A read of one page, at `abort_pa`.
    fn read_outside(
        &self,
        memory: &mut (impl Memory + ?Sized),
        width: Width,
        stop: Stop,
    ) -> Result<u64, Stop> {
        let pa = self.abort_pa();
        match whose(memory, pa, width) {
            Whose::Region(bytes) => Ok(value_of(bytes)),
            Whose::Ram(pages) => Ok(pages.loaded(memory, width as u64)),
            Whose::Device => memory.read(pa, width).ok_or(stop),
            Whose::Nobody => Err(stop),
        }
    }

    /// [`Core::store`] to RAM, or to the device that answers.
    #[inline]
    pub fn store_to(
        &mut self,
        memory: &mut (impl Memory + ?Sized),
        va: u64,
        width: Width,
        value: u64,
    ) -> Result<(), Stop> {
        self.store(&mut memory.ram(), va, width, value)
            .or_else(|stop| self.store_outside(memory, va, width, value, stop))
    }

    #[cold]
    fn store_outside(
        &mut self,
        memory: &mut (impl Memory + ?Sized),
        va: u64,
        width: Width,
        value: u64,
        stop: Stop,
    ) -> Result<(), Stop> {
        let pa = self.abort_pa();
        if !is_external(stop) {
            return Err(stop);
        }
        if self.is_split(va, width) {
            return match memory.region(pa) {
                Some(_) => self.store_over_two(memory, va, width, value),
                None => Err(stop),
            };
        }
        match whose(memory, pa, width) {
            Whose::Region(bytes) => {
                bytes.copy_from_slice(&value.to_le_bytes()[..width as usize]);
                Ok(())
            }
            Whose::Ram(pages) => {
                pages.stored(memory, width as u64, value);
                Ok(())
            }
            Whose::Device => memory.write(pa, width, value).then_some(()).ok_or(stop),
            Whose::Nobody => Err(stop),
        }
    }

    /// [`Core::fetch`] from RAM, or from the device that answers.
    #[inline]
    pub fn fetch_from(&mut self, memory: &mut (impl Memory + ?Sized), va: u64) -> Result<u32, Stop> {
        self.fetch(&memory.ram(), va)
            .or_else(|stop| self.fetch_outside(memory, stop))
    }

    #[cold]
    fn fetch_outside(&mut self, memory: &mut (impl Memory + ?Sized), stop: Stop) -> Result<u32, Stop> {
        if !is_external(stop) {
            return Err(stop);
        }
        let instruction = self.read_outside(memory, Width::Word, stop)?;
        Ok(instruction as u32)
    }

    /// [`Core::system`] on RAM: DC ZVA zeroes what of its line lies in regions too, by eight bytes, up to the first eight of
    /// which no RAM holds one; the abort is theirs. No device is asked.
    pub fn system_on(
        &mut self,
        memory: &mut (impl Memory + ?Sized),
        operation: SystemOperation,
    ) -> Result<(), Stop> {
        match self.system(&mut memory.ram(), operation) {
            Err(Stop::Fault(fault)) if fault.status == EXTERNAL => self.zero_outside(memory, fault),
            done => done,
        }
    }

    /// The rest of a line, from the fault on: its first eight bytes are at `abort_pa`.
    #[cold]
    fn zero_outside(&mut self, memory: &mut (impl Memory + ?Sized), fault: Fault) -> Result<(), Stop> {
        let rest = 64 - fault.address % 64;
        let line = Pages::one(self.abort_pa(), rest);
        for at in (0..rest).step_by(8) {
            if line.lacking(memory, at..at + 8).is_some() {
                self.core.abort_pa = line.byte_at(at);
                let address = fault.address.wrapping_add(at);
                return Err(Stop::Fault(Fault { address, ..fault }));
            }
            Pages::one(line.byte_at(at), 8).stored(memory, 8, 0);
        }
        Ok(())
    }
}
