//! A window on the private items of `exec`. Calls the originals; decides nothing.
use super::*;

/// `fields`: op1, CRn, CRm, op2, register.
#[inline(always)]
pub fn system_op<M: Memory + ?Sized>(cpu: &mut Cpu, fields: [u32; 5], mem: &mut M) -> Exec {
    let [op1, crn, crm, op2, rt] = fields;
    sys(cpu, false, op1, crn, crm, op2, rt, mem)
}
