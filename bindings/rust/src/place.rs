//! Where each part of a core stands among its saved words. A place never moves: new words are appended.
//! `include/a72.h` has the same table, and `tests/places.sh` compares the two with the library's own. Words 70 and 71
//! hold nothing: 0 is saved there, and they are not read. The totals of hits and walks are the sums over the levels.

/// How many words a core is saved as.
pub const WORDS: usize = 5213;

/// A core's words.
pub type State = [u64; WORDS];

/// SCTLR_EL1, SCTLR_EL2, SCTLR_EL3.
pub const SCTLR: usize = 0;
/// TCR of EL1 to EL3.
pub const TCR: usize = 3;
/// TTBR0 of EL1 to EL3.
pub const TTBR0: usize = 6;
/// TTBR1_EL1.
pub const TTBR1_EL1: usize = 9;
/// MAIR of EL1 to EL3.
pub const MAIR: usize = 10;
/// VBAR of EL1 to EL3.
pub const VBAR: usize = 13;
/// ELR of EL1 to EL3.
pub const ELR: usize = 16;
/// SPSR of EL1 to EL3.
pub const SPSR: usize = 19;
/// ESR of EL1 to EL3.
pub const ESR: usize = 22;
/// FAR of EL1 to EL3.
pub const FAR: usize = 25;
/// SCR_EL3.
pub const SCR_EL3: usize = 28;
/// HCR_EL2.
pub const HCR_EL2: usize = 29;
/// VPIDR_EL2.
pub const VPIDR_EL2: usize = 30;
/// VMPIDR_EL2.
pub const VMPIDR_EL2: usize = 31;
/// PAR_EL1.
pub const PAR_EL1: usize = 32;
/// The PC.
pub const PC: usize = 33;
/// NZCV, bits 31 to 28.
pub const NZCV: usize = 34;
/// DAIF, bits 9 to 6.
pub const DAIF: usize = 35;
/// SPSel.
pub const SPSEL: usize = 36;
/// X0 to X30.
pub const GENERAL: usize = 37;
/// The present level.
pub const LEVEL: usize = 68;
/// 1 where accesses are marked unprivileged.
pub const UNPRIVILEGED: usize = 69;
/// How many flushes of the whole cache there were.
pub const FLUSHES: usize = 72;
/// How many invalidations of a page there were.
pub const DROPS: usize = 73;
/// Moves whenever a translation that was looked up may no longer hold.
pub const EPOCH: usize = 74;
/// What is pending: 0 nothing, 1 All, 2 Page, 3 Asid.
pub const PENDING: usize = 75;
/// The page or the ASID of what is pending, otherwise 0.
pub const PENDING_VALUE: usize = 76;
/// The physical address of the last load that was translated.
pub const LAST_PA: usize = 77;
/// The physical address of the last external abort.
pub const ABORT_PA: usize = 78;
/// The cache's generation.
pub const GENERATION: usize = 79;
/// The cache's ASID.
pub const ASID: usize = 80;
/// The fetch hint: 1 where there is one; else the three words after it are zeros, and not read.
pub const FETCH: usize = 81;
/// The fetch hint's page address.
pub const FETCH_PAGE: usize = 82;
/// The fetch hint's level.
pub const FETCH_LEVEL: usize = 83;
/// The fetch hint's physical page address.
pub const FETCH_PA: usize = 84;
/// 512 data hints of two words: the key, the page address plus the level, or all ones where there is no hint.
pub const HINTS: usize = 85;
/// A data hint's physical page address.
pub const HINT_PA: usize = 86;
/// 1,024 entries of four words: the tag, the untagged page number * 4 + regime, or 0 where it was dropped.
pub const ENTRIES: usize = 1109;
/// An entry's generation.
pub const ENTRY_GENERATION: usize = 1110;
/// An entry's permissions, plus level << 8, global << 16, ASID << 32. The permissions are read 1, write 2, fetch 4 for
/// EL0, and eight times that for the regime's own level.
pub const ENTRY_ATTRIBUTES: usize = 1111;
/// An entry's physical page address.
pub const ENTRY_PA: usize = 1112;
/// How many translations at EL0 an entry answered; those at level L stand at LEVEL_HITS + L.
pub const LEVEL_HITS: usize = 5205;
/// How many walks there were at EL0; those at level L stand at LEVEL_WALKS + L.
pub const LEVEL_WALKS: usize = 5209;
