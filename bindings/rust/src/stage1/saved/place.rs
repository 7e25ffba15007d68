// Written by tools/plain from crates/saved/src/place.rt: change that.
//! Where each part of a core stands among the words of a saved core. A place never moves: new words are appended.
pub const WORDS: usize = 5213;

/// The words of a saved core.
pub type Saved = [u64; WORDS];

/// The registers by level: EL1, EL2, EL3.
pub const SCTLR: usize = 0;

pub const TCR: usize = 3;

pub const TTBR0: usize = 6;

pub const TTBR1_EL1: usize = 9;

pub const MAIR: usize = 10;

pub const VBAR: usize = 13;

pub const ELR: usize = 16;

pub const SPSR: usize = 19;

pub const ESR: usize = 22;

pub const FAR: usize = 25;

pub const SCR_EL3: usize = 28;

pub const HCR_EL2: usize = 29;

pub const VPIDR_EL2: usize = 30;

pub const VMPIDR_EL2: usize = 31;

pub const PAR_EL1: usize = 32;

pub const PC: usize = 33;

pub const NZCV: usize = 34;

pub const DAIF: usize = 35;

pub const SPSEL: usize = 36;
/// X0 to X30
pub const GENERAL: usize = 37;

pub const LEVEL: usize = 68;

pub const UNPRIVILEGED: usize = 69;

/// Words 70 and 71 hold nothing.
pub const FLUSHES: usize = 72;

pub const DROPS: usize = 73;

pub const EPOCH: usize = 74;
/// What is pending, 0 nothing, 1 All, 2 Page, 3 Asid, and its page or ASID.
pub const PENDING: usize = 75;

pub const PENDING_VALUE: usize = 76;

pub const LAST_PA: usize = 77;

pub const ABORT_PA: usize = 78;

pub const GENERATION: usize = 79;

pub const ASID: usize = 80;
/// The fetch hint: whether there is one, its page, level and physical page.
pub const FETCH: usize = 81;

pub const FETCH_PAGE: usize = 82;

pub const FETCH_LEVEL: usize = 83;

pub const FETCH_PA: usize = 84;
/// 512 data hints of two words: key, physical page.
pub const HINTS: usize = 85;

pub const HINT_PA: usize = 86;
/// 1,024 entries of four words: tag, generation, attributes, physical page.
pub const ENTRIES: usize = 1109;

pub const ENTRY_GENERATION: usize = 1110;

pub const ENTRY_ATTRIBUTES: usize = 1111;

pub const ENTRY_PA: usize = 1112;
/// Hits by level, EL0 to EL3; then walks.
pub const LEVEL_HITS: usize = 5205;

pub const LEVEL_WALKS: usize = 5209;
