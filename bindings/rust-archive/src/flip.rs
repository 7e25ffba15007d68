//! The bit of RAM whose flip changes a translation.
use crate::core::{stop, Core};
use crate::raw;
use plain::number::DONE;
use plain::{Access, FlippedBit, Ram, Stop, View};

impl Core {
    /// Which bit of RAM, the other way, changes the answer to an access at `va` with nothing cached: of the first
    /// such descriptor, in the order in which the walk reads them, the lowest such bit. `None` where no single bit
    /// anywhere in RAM changes it. A change is another address, another status, or a fault where there was an
    /// address, or none.
    ///
    /// It is the answer in the regime of the present level, which EL0 and EL1 share, and by the rights of a view:
    /// neither the cache nor the mark counts. Each read of the word sees it flipped, also where one table is read at
    /// two levels. RAM is written while this runs, and in the end is as it was; core and report stay.
    pub fn flip(
        &self,
        ram: &mut Ram,
        va: u64,
        access: Access,
        view: View,
    ) -> Result<Option<FlippedBit>, Stop> {
        match raw::flip(&self.held, va, access as u64, view as u64, ram.base, ram.bytes) {
            (DONE, [found, pa, bit]) => Ok((found == 1).then_some(FlippedBit { pa, bit: bit as u8 })),
            (n, _) => Err(stop(n, access, va)),
        }
    }
}
