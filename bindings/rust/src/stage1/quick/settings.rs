// Written by tools/plain from crates/quick/src/settings.rt: change that.
//! What sets a register, the level, the mark or a general register of a core that is lent, and abort entry: the number.

use crate::stage1::call_words::op;
use crate::stage1::cpu::{Core, check};
use crate::stage1::exception::kind::Exception;
use crate::stage1::sysreg::write::WriteError;

/// A register write, by the register's key.
#[inline]
pub fn register(core: &mut Core, key: u64, value: u64) -> u64 {
    if 3 < core.privilege.level {
        return 1;
    }
    match core.write_reg(op::key_of(key), value) {
        Ok(()) => 0,
        Err(WriteError::Undefined) => 65,
        Err(WriteError::NoRegister) => 6,
    }
}

/// The present level, 0 to 3.
#[inline]
pub fn level(core: &mut Core, level: u64) -> u64 {
    if 3 < core.privilege.level {
        return 1;
    }
    if 3 < level {
        return 1;
    }
    core.set_level(level as u8);
    0
}

/// The mark of unprivileged accesses, 0 or 1.
#[inline]
pub fn mark(core: &mut Core, mark: u64) -> u64 {
    if 1 < mark {
        return 64;
    }
    if 3 < core.privilege.level {
        return 1;
    }
    core.set_mark(mark == 1);
    0
}

/// A general register, X0 to X30; 31 takes nothing.
#[inline]
pub fn general(core: &mut Core, number: u64, value: u64) -> u64 {
    if 3 < core.privilege.level {
        return 1;
    }
    if number < 31 {
        core.set_reg(number, value);
        0
    } else if number == 31 {
        0
    } else {
        5
    }
}

/// Abort entry.
#[inline]
pub fn abort(core: &mut Core, e: Exception) -> u64 {
    if 3 < core.privilege.level {
        return 1;
    }
    core.take_sync(e);
    0
}
