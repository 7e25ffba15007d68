//! What the harness sees: the access modules of the private modules, and their answers in public types.
pub use super::cpu::access as cpu;
use super::cpu::{Cpu, Exception, Memory};
use super::exec::{access as exec, Stop};
pub use super::mmu::access as mmu;
pub use super::mmu::{Inval, Tlb};
pub use super::sysreg::access as sysreg;

/// `exec::Stop` without the two cases that no operation here gives.
#[derive(Clone, Copy, Debug, PartialEq, Eq)]
pub enum Halt {
    Exception(Exception),
    Unimplemented,
}

#[inline(always)]
fn halt(s: Stop) -> Halt {
    match s {
        Stop::Exception(e) => Halt::Exception(e),
        Stop::Unimplemented => Halt::Unimplemented,
        Stop::Wfi | Stop::Wfe => unreachable!(),
    }
}

#[inline(always)]
pub fn load<M: Memory + ?Sized>(c: &mut Cpu, m: &mut M, va: u64, n: u32) -> Result<u64, Halt> {
    mmu::read(c, m, va, n).map_err(halt)
}

#[inline(always)]
pub fn store<M: Memory + ?Sized>(c: &mut Cpu, m: &mut M, va: u64, n: u32, v: u64) -> Result<(), Halt> {
    mmu::write(c, m, va, n, v).map_err(halt)
}

#[inline(always)]
pub fn fetch<M: Memory + ?Sized>(c: &mut Cpu, m: &mut M, va: u64) -> Result<u32, Halt> {
    mmu::fetch(c, m, va).map_err(Halt::Exception)
}

/// `fields`: op1, CRn, CRm, op2, register.
#[inline(always)]
pub fn system_op<M: Memory + ?Sized>(c: &mut Cpu, fields: [u32; 5], m: &mut M) -> Result<(), Halt> {
    exec::system_op(c, fields, m).map_err(halt)
}

#[inline(always)]
pub fn write_reg<M: Memory + ?Sized>(c: &mut Cpu, k: u32, v: u64, m: &mut M) -> Result<(), Halt> {
    sysreg::set(c, k, v, m).map_err(halt)
}
