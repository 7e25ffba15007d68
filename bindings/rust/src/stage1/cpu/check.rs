// Written by tools/plain from crates/cpu/src/check.rt: change that.
//! The checks 1 to 8 of docs/SCOPE.md, each call's from top to bottom; of several cores 8 comes before all.

use crate::stage1::cpu::call::Call;
use crate::stage1::sysreg::encoding;
use crate::stage1::system::decode::Encoding;
use crate::stage1::word::ram::Width;

/// What a call may miss; its number is the call's answer.
#[derive(Clone, Copy, Debug, PartialEq, Eq)]
pub enum Check {
    /// a level is at most 3
    Level = 1,
    /// the window ends at 2^64 or before
    Window,
    /// a size is 1, 2, 4 or 8
    Size,
    /// op1 and op2 are at most 7, CRn and CRm at most 15
    Encoding,
    /// the number of a general register is at most 31
    General,
    /// a key names a register
    Key,
    /// a census has at most 65,536 pages, and its range ends at 2^64 or before
    Pages,
    /// of several cores, a core's number is at most 3
    Core,
}

impl Check {
    /// Its number, 1 to 8.
    #[inline]
    pub fn number(self) -> u8 {
        self as u8
    }

    /// An error where it is missed.
    #[inline(always)]
    fn unless(self, missed: bool) -> Result<(), Check> {
        if missed { Err(self) } else { Ok(()) }
    }
}

/// The number of the check that a call misses, or 0.
#[inline]
pub fn number_missed<T: Copy>(checked: Result<T, Check>) -> u8 {
    match checked {
        Ok(_) => 0,
        Err(check) => check.number(),
    }
}

/// Whether a window of len bytes from base passes 2^64. Nearly every one ends at the last address or before it.
#[inline]
pub fn past_end(base: u64, len: u64) -> bool {
    u64::MAX - len < base && u64::MAX - base + 1 < len
}

/// The place among four cores of the one that has a number.
#[inline]
pub fn core(n: u64) -> Result<usize, Check> {
    if 3 < n { Err(Check::Core) } else { Ok(n as usize) }
}

/// Whether a census has more than 65,536 pages, or its range passes 2^64.
#[inline]
fn is_overlong(first: u64, pages: u64) -> bool {
    65536 < pages || 0x10_0000_0000_0000 - first / 4096 < pages
}

/// Setting the mark, abort entry. Each of these functions gives the first check that its calls miss.
#[inline]
pub fn any(level: u8) -> Result<(), Check> {
    Check::Level.unless(3 < level)
}

/// Setting the level.
#[inline]
pub fn levels(level: u8, requested: u64) -> Result<(), Check> {
    Check::Level.unless(3 < level || 3 < requested)
}

/// Translations, fetch, windows and a flip: no other check is theirs.
#[inline]
pub fn with_ram(level: u8, base: u64, len: u64) -> Result<(), Check> {
    any(level)?;
    Check::Window.unless(past_end(base, len))
}

/// Load, store: and the width that the size is.
#[inline]
pub fn sized(level: u8, base: u64, len: u64, size: u64) -> Result<Width, Check> {
    with_ram(level, base, len).and(Width::of_size(size).ok_or(Check::Size))
}

/// System operation.
#[inline]
pub fn system(level: u8, base: u64, len: u64, e: Encoding) -> Result<(), Check> {
    with_ram(level, base, len)?;
    Check::Encoding.unless(((7 < e.op1) | (7 < e.op2)) | ((15 < e.crn) | (15 < e.crm)))?;
    Check::General.unless(31 < e.rt)
}

/// Register write.
#[inline]
pub fn register(level: u8, key: u32) -> Result<(), Check> {
    any(level)?;
    Check::Key.unless(encoding::named(key).is_none())
}

/// Setting a general register.
#[inline]
pub fn general(level: u8, number: u64) -> Result<(), Check> {
    any(level)?;
    Check::General.unless(31 < number)
}

/// Census.
#[inline]
pub fn census(level: u8, base: u64, len: u64, first: u64, pages: u64) -> Result<(), Check> {
    with_ram(level, base, len)?;
    Check::Pages.unless(is_overlong(first, pages))
}

/// Any call.
#[inline]
pub fn missed(level: u8, base: u64, len: u64, call: Call) -> Result<(), Check> {
    match call {
        Call::Translate(_, _)
        | Call::DataPa(_)
        | Call::FetchPa(_)
        | Call::Fetch(_)
        | Call::Windows
        | Call::Flip(..) => with_ram(level, base, len),
        Call::Load(_, size) | Call::Store(_, size, _) => sized(level, base, len, size).and(Ok(())),
        Call::System(e) => system(level, base, len, e),
        Call::Register(key, _) => register(level, key),
        Call::Level(requested) => levels(level, requested),
        Call::Mark(_) | Call::Abort(_) => any(level),
        Call::General(number, _) => general(level, number),
        Call::Census(first, pages) => census(level, base, len, first, pages),
    }
}
