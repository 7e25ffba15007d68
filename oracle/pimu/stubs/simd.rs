//! Stub: reached only from `exec::execute` with a vector instruction, which the harness never executes.
use super::cpu::{Cpu, Memory};
use super::exec::Exec;

pub(super) fn execute(_: &mut Cpu, _: u32) -> Exec {
    unreachable!("stub: simd")
}

pub(super) fn ldst_structures<M: Memory + ?Sized>(_: &mut Cpu, _: u32, _: &mut M) -> Exec {
    unreachable!("stub: simd")
}
