//! A window on the private items of `cpu`. Calls the originals; decides nothing.
use super::*;

pub fn syndrome(e: Exception, from: u32, to: u32, pc: u64) -> (u64, Option<u64>) {
    e.syndrome(from, to, pc)
}

pub fn unprivileged(c: &Cpu) -> bool {
    c.unprivileged
}

#[inline(always)]
pub fn set_unprivileged(c: &mut Cpu, on: bool) {
    c.unprivileged = on;
}

pub fn last_pa(c: &Cpu) -> u64 {
    c.last_pa
}

pub fn set_last_pa(c: &mut Cpu, pa: u64) {
    c.last_pa = pa;
}

/// The exclusive monitor's mark: virtual and physical address.
pub fn exclusive(c: &Cpu) -> Option<(u64, u64)> {
    c.exclusive
}

pub fn set_exclusive(c: &mut Cpu, mark: Option<(u64, u64)>) {
    c.exclusive = mark;
}
