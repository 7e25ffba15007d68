//! The registers and the settings: the state of the core without a cache.
use super::bits::{bit, bits};
use super::Mistake;
use std::collections::BTreeMap;

#[derive(Clone, Copy, PartialEq, Eq, PartialOrd, Ord, Debug)]
pub enum Bank {
    Sctlr,
    Tcr,
    Ttbr0,
    Ttbr1,
    Mair,
    Vbar,
    Elr,
    Spsr,
    Esr,
    Far,
    Scr,
    Hcr,
    Vpidr,
    Vmpidr,
}

/// Register, CRn, CRm, op2, and the levels it exists for.
const BANKS: [(Bank, u32, u32, u32, &[u32]); 14] = [
    (Bank::Sctlr, 1, 0, 0, &[1, 2, 3]),
    (Bank::Tcr, 2, 0, 2, &[1, 2, 3]),
    (Bank::Ttbr0, 2, 0, 0, &[1, 2, 3]),
    (Bank::Ttbr1, 2, 0, 1, &[1]),
    (Bank::Mair, 10, 2, 0, &[1, 2, 3]),
    (Bank::Vbar, 12, 0, 0, &[1, 2, 3]),
    (Bank::Elr, 4, 0, 1, &[1, 2, 3]),
    (Bank::Spsr, 4, 0, 0, &[1, 2, 3]),
    (Bank::Esr, 5, 2, 0, &[1, 2, 3]),
    (Bank::Far, 6, 0, 0, &[1, 2, 3]),
    (Bank::Scr, 1, 1, 0, &[3]),
    (Bank::Hcr, 1, 1, 0, &[2]),
    (Bank::Vpidr, 0, 0, 0, &[2]),
    (Bank::Vmpidr, 0, 0, 5, &[2]),
];

const PAR: u32 = 0xC3A0;

fn key(op1: u32, crn: u32, crm: u32, op2: u32) -> u32 {
    3 * 16384 + op1 * 2048 + crn * 128 + crm * 8 + op2
}

pub fn banked(k: u32) -> Option<(Bank, u32)> {
    for (bank, crn, crm, op2, levels) in BANKS {
        for &l in levels {
            if key([0, 0, 4, 6][l as usize], crn, crm, op2) == k {
                return Some((bank, l));
            }
        }
    }
    None
}

/// The keys a register write takes.
pub fn kept(k: u32) -> bool {
    k == PAR || banked(k).is_some()
}

/// Whether the register is one that `shaping` always holds.
pub fn shapes(k: u32) -> bool {
    matches!(
        banked(k),
        Some((Bank::Sctlr | Bank::Tcr | Bank::Scr | Bank::Hcr, _))
    )
}

#[derive(Clone, PartialEq, Eq)]
pub struct Regs {
    pub bank: BTreeMap<(Bank, u32), u64>,
    pub par: u64,
    pub pc: u64,
    pub nzcv: u64,
    pub daif: u64,
    pub spsel: bool,
    pub x: [u64; 31],
    pub level: u32,
    pub mark: bool,
    /// The mistake that this core makes, if any.
    pub mistake: Option<Mistake>,
}

impl Regs {
    pub fn fresh(mistake: Option<Mistake>) -> Regs {
        let mut bank = BTreeMap::new();
        for (r, _, _, _, levels) in BANKS {
            for &l in levels {
                let v = match (r, l) {
                    (Bank::Sctlr, 1) => 0x30D0_0800,
                    (Bank::Sctlr, _) => 0x30C5_0830,
                    (Bank::Vpidr, _) => 0x410F_D083,
                    (Bank::Vmpidr, _) => 0x8000_0000,
                    _ => 0,
                };
                bank.insert((r, l), v);
            }
        }
        Regs {
            bank,
            par: 0,
            pc: 0,
            nzcv: 0,
            daif: 0x3C0,
            spsel: true,
            x: [0; 31],
            level: 3,
            mark: false,
            mistake,
        }
    }

    pub fn makes(&self, m: Mistake) -> bool {
        self.mistake == Some(m)
    }

    pub fn get(&self, bank: Bank, level: u32) -> u64 {
        self.bank[&(bank, level)]
    }

    /// A general register; number 31 reads as zero.
    pub fn general(&self, r: u32) -> u64 {
        if r == 31 {
            0
        } else {
            self.x[r as usize]
        }
    }

    /// False: Undefined.
    pub fn write_reg(&mut self, k: u32, v: u64) -> bool {
        if self.level == 0 {
            return false;
        }
        let Some(at) = banked(k) else {
            self.par = v;
            return true;
        };
        let v = match at.0 {
            Bank::Vbar => v / 2048 * 2048,
            Bank::Spsr => v & 0xF03F_03DF,
            Bank::Esr | Bank::Vpidr => v % (1 << 32),
            _ => v,
        };
        self.bank.insert(at, v);
        true
    }

    /// The registers whose change flushes.
    pub fn shaping(&self) -> Vec<u64> {
        let mut s = Vec::new();
        for l in 1..=3 {
            s.extend([self.get(Bank::Sctlr, l), self.get(Bank::Tcr, l)]);
        }
        s.extend([self.get(Bank::Ttbr0, 2), self.get(Bank::Ttbr0, 3)]);
        s.extend([self.get(Bank::Hcr, 2), self.get(Bank::Scr, 3)]);
        s
    }

    pub fn asid(&self) -> u16 {
        let tcr = self.get(Bank::Tcr, 1);
        let holder = if bit(tcr, 22) { Bank::Ttbr1 } else { Bank::Ttbr0 };
        let top = if bit(tcr, 36) { 63 } else { 55 };
        bits(self.get(holder, 1), top, 48) as u16
    }

    /// The regime of the present level: the level, but 1 at EL0.
    pub fn regime(&self) -> u32 {
        self.level.max(1)
    }
}
