// Written by tools/plain from crates/cpu/src/registers.rt: change that.
//! Register writes, settings and abort entry on the core.

use crate::stage1::cpu::Core;
use crate::stage1::exception::enter;
use crate::stage1::exception::kind::Exception;
use crate::stage1::sysreg::regs::Control;
use crate::stage1::sysreg::write;
use crate::stage1::sysreg::write::WriteError;
use crate::stage1::tlb::Tlb;

/// What a register write does to the cache: where the shape changed, a flush; then, where the ASID differs from the
/// cache's, a retag.
#[inline(always)]
fn refit(t: &mut Tlb, before: Control, after: Control) {
    if !before.same_shaping(&after) {
        t.flush();
    }
    let asid = after.asid();
    if t.asid != asid {
        t.retag(asid);
    }
}

impl Core {
    /// A register write: the register, then the cache. One that is not done changes nothing.
    #[inline(always)]
    pub fn write_reg(&mut self, key: u32, value: u64) -> Result<(), WriteError> {
        let before = self.control;
        write::write_reg(&mut self.control, &mut self.sys, self.privilege.level, key, value)?;
        refit(&mut self.tlb, before, self.control);
        Ok(())
    }

    /// The level is set.
    #[inline]
    pub fn set_level(&mut self, level: u8) {
        self.privilege.level = level;
    }

    /// The mark is set or cleared.
    #[inline]
    pub fn set_mark(&mut self, mark: bool) {
        self.privilege.unprivileged = mark;
    }

    /// A synchronous exception at the PC is routed and taken.
    #[inline(always)]
    pub fn take_sync(&mut self, e: Exception) {
        enter::take_sync(
            &mut self.privilege.level,
            &mut self.flags,
            &mut self.pc,
            &mut self.sys,
            &self.control,
            e,
        );
    }
}
