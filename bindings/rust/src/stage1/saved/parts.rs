// Written by tools/plain from crates/saved/src/parts.rt: change that.
//! The small parts of a core, read among its words.

use crate::stage1::exception::flags::Flags;
use crate::stage1::saved::place;
use crate::stage1::saved::place::Saved;
use crate::stage1::sysreg::regs::{Control, SysRegs};
use crate::stage1::tlb::Inval;
use crate::stage1::tlb::access::Privilege;
use crate::stage1::tlb::count::Tally;
use crate::stage1::tlb::entry::Entry;
use crate::stage1::tlb::hint::{FetchHint, Hint};

#[inline]
pub fn control_at(words: &Saved) -> Control {
    Control {
        sctlr: levels_at(words, place::SCTLR),
        tcr: levels_at(words, place::TCR),
        ttbr0: levels_at(words, place::TTBR0),
        ttbr1_el1: words[place::TTBR1_EL1],
        scr_el3: words[place::SCR_EL3],
        hcr_el2: words[place::HCR_EL2],
    }
}

#[inline]
pub fn sys_at(words: &Saved) -> SysRegs {
    SysRegs {
        mair: levels_at(words, place::MAIR),
        vbar: levels_at(words, place::VBAR),
        elr: levels_at(words, place::ELR),
        spsr: levels_at(words, place::SPSR),
        esr: levels_at(words, place::ESR),
        far: levels_at(words, place::FAR),
        vpidr_el2: words[place::VPIDR_EL2],
        vmpidr_el2: words[place::VMPIDR_EL2],
        par_el1: words[place::PAR_EL1],
    }
}

/// The registers of EL1, EL2 and EL3, three words from a place on.
#[inline]
fn levels_at(words: &Saved, place: usize) -> [u64; 4] {
    [0, words[place], words[place + 1], words[place + 2]]
}

#[inline]
pub fn flags_at(words: &Saved) -> Flags {
    Flags {
        nzcv: (words[place::NZCV] % 0x1_0000_0000) as u32,
        daif: (words[place::DAIF] % 0x1_0000_0000) as u32,
        spsel: words[place::SPSEL] == 1,
    }
}

/// A level that no byte holds is 255, which check 1 refuses like every level above 3.
#[inline]
fn level_of(word: u64) -> u8 {
    if word < 256 { word as u8 } else { 255 }
}

#[inline]
pub fn privilege_at(words: &Saved) -> Privilege {
    Privilege {
        level: level_of(words[place::LEVEL]),
        unprivileged: words[place::UNPRIVILEGED] == 1,
    }
}

#[inline]
fn tally_at(words: &Saved, level: usize) -> Tally {
    Tally {
        hits: words[place::LEVEL_HITS + level],
        walks: words[place::LEVEL_WALKS + level],
    }
}

#[inline]
pub fn tallies_at(words: &Saved) -> [Tally; 4] {
    [
        tally_at(words, 0),
        tally_at(words, 1),
        tally_at(words, 2),
        tally_at(words, 3),
    ]
}

#[inline]
pub fn pending_at(words: &Saved) -> Option<Inval> {
    let value = words[place::PENDING_VALUE];
    match words[place::PENDING] {
        1 => Some(Inval::All),
        2 => Some(Inval::Page(value)),
        3 => Some(Inval::Asid((value % 0x1_0000) as u16)),
        _ => None,
    }
}

#[inline]
pub fn fetch_at(words: &Saved) -> Option<FetchHint> {
    (words[place::FETCH] == 1).then_some(FetchHint {
        page: words[place::FETCH_PAGE],
        level: (words[place::FETCH_LEVEL] % 256) as u8,
        pa: words[place::FETCH_PA],
    })
}

#[inline]
pub(crate) fn hint_at(words: &Saved, i: usize) -> Hint {
    Hint {
        key: words[place::HINTS + i * 2],
        pa: words[place::HINT_PA + i * 2],
    }
}

#[inline]
pub(crate) fn entry_at(words: &Saved, j: usize) -> Entry {
    let attributes = words[place::ENTRY_ATTRIBUTES + j * 4];
    Entry {
        tag: words[place::ENTRIES + j * 4],
        generation: (words[place::ENTRY_GENERATION + j * 4] % 0x1_0000_0000) as u32,
        perms: (attributes % 256) as u8,
        level: (attributes / 256 % 256) as u8,
        global: attributes / 65536 % 2 == 1,
        asid: (attributes / 0x1_0000_0000 % 0x1_0000) as u16,
        pa: words[place::ENTRY_PA + j * 4],
    }
}
