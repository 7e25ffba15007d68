//! RAM, lent by the bus to the core for one operation.
use std::cell::Cell;
use std::mem::{take, ManuallyDrop};

use crate::aarch64::Memory;
use a72::Ram;

/// The key by which `Memory::sysreg_write` is asked for the bus's RAM (value 1), and gets it back (value 0). No register
/// has it: keys have 16 bits.
const LEND: u32 = u32::MAX;

/// RAM away from its bus: the physical address of its first byte, and the bytes. They are never dropped here, the bus
/// takes them back; so the thread has nothing to tidy, and makes no check for that at each use.
type Lent = (u64, ManuallyDrop<Vec<u8>>);

thread_local! {
    static LENT: Cell<Option<Lent>> = const { Cell::new(None) };
}

/// What a bus calls first in its `Memory::sysreg_write`: its RAM, which begins at physical address `base`, is handed to
/// the core for one operation, and comes back; nothing is copied. Whether that was what the call is about.
#[inline]
pub fn lends<R>(key: u32, value: u64, base: u64, ram: &mut R) -> bool
where
    R: Default + Into<Vec<u8>> + From<Vec<u8>>,
{
    if key != LEND {
        return false;
    }
    if value == 1 {
        LENT.set(Some((base, ManuallyDrop::new(take(ram).into()))));
    } else if let Some((_, bytes)) = LENT.take() {
        *ram = ManuallyDrop::into_inner(bytes).into();
    }
    true
}

/// Ask something of the core over the bus's RAM.
#[inline]
pub(super) fn with_ram<M: Memory + ?Sized, T>(mem: &mut M, ask: impl FnOnce(&mut Ram) -> T) -> T {
    mem.sysreg_write(LEND, 1);
    let lent = LENT.take();
    let (base, mut bytes) = lent.expect("the bus lends no RAM: its sysreg_write calls mmu::lends");
    let answer = ask(&mut Ram::new(base, &mut bytes));
    LENT.set(Some((base, bytes)));
    mem.sysreg_write(LEND, 0);
    answer
}
