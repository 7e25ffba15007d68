//! Accesses of which the window of RAM does not hold all bytes, and a region holds some; and loads and stores over two pages.
use crate::answer::{Fault, Stop};
use crate::core::Core;
use crate::memory::{EXTERNAL, Memory};
use crate::operation::{Access, Width};
use crate::stage1::cpu::place::{self, Pages};
use core::ops::Range;

/// The byte of RAM at a physical address, in the window or in a region.
fn byte(memory: &mut (impl Memory + ?Sized), pa: u64) -> Option<&mut u8> {
    let ram = if memory.ram().holds(pa) {
        memory.ram()
    } else {
        memory.region(pa)?
    };
    ram.part(pa, 1)?.first_mut()
}

/// The bytes of an access, wherever in RAM each of them lies.
impl Pages {
    /// An access of one page.
    pub(crate) fn one(pa: u64, size: u64) -> Pages {
        let (in_page, pa2) = (size, 0);
        Pages { in_page, pa, pa2 }
    }

    /// The lowest of these bytes that no RAM holds.
    pub(crate) fn lacking(self, memory: &mut (impl Memory + ?Sized), mut bytes: Range<u64>) -> Option<u64> {
        bytes.find(|&i| byte(memory, self.byte_at(i)).is_none())
    }

    /// The little-endian value of the first `size` bytes, all of which RAM holds.
    pub(crate) fn loaded(self, memory: &mut (impl Memory + ?Sized), size: u64) -> u64 {
        let mut value = [0; 8];
        for (i, to) in (0..size).zip(&mut value) {
            *to = byte(memory, self.byte_at(i)).map_or(0, |from| *from);
        }
        u64::from_le_bytes(value)
    }

    /// The low bytes of a value into the first `size` bytes, all of which RAM holds.
    pub(crate) fn stored(self, memory: &mut (impl Memory + ?Sized), size: u64, value: u64) {
        for (i, from) in (0..size).zip(value.to_le_bytes()) {
            if let Some(to) = byte(memory, self.byte_at(i)) {
                *to = from;
            }
        }
    }
}

/// What of an access is there: the places of its bytes, how many of them a store writes, and what stops it.
struct Found {
    pages: Pages,
    moved: u64,
    stop: Option<Stop>,
}

impl Core {
    /// Both pages are translated again, as they were before, and the bytes judged one by one, as the core does: the lowest
    /// that no RAM holds stops the access, before a fault of the second page; and where a page faults no byte moves.
    fn found(
        &mut self,
        memory: &mut (impl Memory + ?Sized),
        va: u64,
        width: Width,
        access: Access,
    ) -> Result<Found, Stop> {
        let fault = |address, status| {
            Stop::Fault(Fault {
                access,
                address,
                status,
            })
        };
        let reads = self.answer.reads;
        let first = self.translate(&memory.ram(), va, access);
        let second = self.translate(&memory.ram(), place::next_page(va), access);
        // The report is of the first time.
        self.answer.reads = reads;
        let (size, in_page) = (width as u64, place::in_page(va));
        let pages = Pages {
            in_page,
            pa: first?,
            pa2: second.unwrap_or(0),
        };
        let mapped = if second.is_ok() { size } else { in_page };
        let lacking = pages.lacking(memory, 0..mapped);
        let external = lacking.map(|i| {
            self.core.abort_pa = pages.byte_at(i);
            fault(va.wrapping_add(i), EXTERNAL)
        });
        let moved = match second {
            Ok(_) => lacking.unwrap_or(size),
            Err(_) => 0,
        };
        let stop = external.or(second.err());
        Ok(Found { pages, moved, stop })
    }

    pub(crate) fn load_over_two(
        &mut self,
        memory: &mut (impl Memory + ?Sized),
        va: u64,
        width: Width,
    ) -> Result<u64, Stop> {
        let found = self.found(memory, va, width, Access::Read)?;
        if let Some(stop) = found.stop {
            return Err(stop);
        }
        Ok(found.pages.loaded(memory, found.moved))
    }

    pub(crate) fn store_over_two(
        &mut self,
        memory: &mut (impl Memory + ?Sized),
        va: u64,
        width: Width,
        value: u64,
    ) -> Result<(), Stop> {
        let found = self.found(memory, va, width, Access::Write)?;
        found.pages.stored(memory, found.moved, value);
        found.stop.map_or(Ok(()), Err)
    }
}
