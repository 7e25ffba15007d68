//! A64 instructions as words, and a program that is put together of them.

/// A system register's key as `MSR` and `MRS` name it: op0, op1, CRn, CRm, op2.
pub const fn key(op0: u32, op1: u32, crn: u32, crm: u32, op2: u32) -> u32 {
    op0 << 14 | op1 << 11 | crn << 7 | crm << 3 | op2
}

pub const SCTLR_EL1: u32 = key(3, 0, 1, 0, 0);
pub const TTBR0_EL1: u32 = key(3, 0, 2, 0, 0);
pub const TTBR1_EL1: u32 = key(3, 0, 2, 0, 1);
pub const TCR_EL1: u32 = key(3, 0, 2, 0, 2);
pub const SPSR_EL1: u32 = key(3, 0, 4, 0, 0);
pub const ELR_EL1: u32 = key(3, 0, 4, 0, 1);
pub const ESR_EL1: u32 = key(3, 0, 5, 2, 0);
pub const FAR_EL1: u32 = key(3, 0, 6, 0, 0);
pub const PAR_EL1: u32 = key(3, 0, 7, 4, 0);
pub const MAIR_EL1: u32 = key(3, 0, 10, 2, 0);
pub const VBAR_EL1: u32 = key(3, 0, 12, 0, 0);
pub const SCR_EL3: u32 = key(3, 6, 1, 1, 0);
pub const HCR_EL2: u32 = key(3, 4, 1, 1, 0);

/// The like register of EL2 or EL3 (op1 4 or 6 for 0).
pub const fn at_level(key: u32, el: u32) -> u32 {
    key + (if el == 1 { 0 } else { el }) * (1 << 12)
}

pub const fn msr(key: u32, rt: u32) -> u32 {
    0xD500_0000 | key << 5 | rt
}

pub const fn mrs(rt: u32, key: u32) -> u32 {
    0xD520_0000 | key << 5 | rt
}

/// `SYS`: op1, CRn, CRm, op2 and the register.
pub const fn sys(op: [u32; 4], rt: u32) -> u32 {
    0xD508_0000 | op[0] << 16 | op[1] << 12 | op[2] << 8 | op[3] << 5 | rt
}

pub const TLBI_VMALLE1: [u32; 4] = [0, 8, 7, 0];
pub const TLBI_VAE1: [u32; 4] = [0, 8, 7, 1];
pub const TLBI_VAE1IS: [u32; 4] = [0, 8, 3, 1];
pub const TLBI_ASIDE1: [u32; 4] = [0, 8, 7, 2];
pub const DC_ZVA: [u32; 4] = [3, 7, 4, 1];
pub const AT_S1E1R: [u32; 4] = [0, 7, 8, 0];
pub const AT_S1E1W: [u32; 4] = [0, 7, 8, 1];
pub const AT_S1E0R: [u32; 4] = [0, 7, 8, 2];

pub const NOP: u32 = 0xD503_201F;
pub const ISB: u32 = 0xD503_3FDF;
pub const DSB: u32 = 0xD503_3F9F;
pub const SEV: u32 = 0xD503_209F;
pub const CLREX: u32 = 0xD503_3F5F;
pub const ERET: u32 = 0xD69F_03E0;
pub const RET: u32 = 0xD65F_03C0;

pub const fn movz(rd: u32, imm: u32, hw: u32) -> u32 {
    0xD280_0000 | hw << 21 | (imm & 0xFFFF) << 5 | rd
}

pub const fn movk(rd: u32, imm: u32, hw: u32) -> u32 {
    0xF280_0000 | hw << 21 | (imm & 0xFFFF) << 5 | rd
}

pub const fn add_imm(rd: u32, rn: u32, imm: u32) -> u32 {
    0x9100_0000 | imm << 10 | rn << 5 | rd
}

pub const fn sub_imm(rd: u32, rn: u32, imm: u32) -> u32 {
    0xD100_0000 | imm << 10 | rn << 5 | rd
}

/// One of add 0x8B, sub 0xCB, and 0x8A, orr 0xAA, eor 0xCA, adds 0xAB, subs 0xEB of two registers.
pub const fn of_two(code: u32, rd: u32, rn: u32, rm: u32) -> u32 {
    code << 24 | rm << 16 | rn << 5 | rd
}

pub const fn add(rd: u32, rn: u32, rm: u32) -> u32 {
    of_two(0x8B, rd, rn, rm)
}

pub const fn cmp(rn: u32, rm: u32) -> u32 {
    of_two(0xEB, 31, rn, rm)
}

pub const fn lsl(rd: u32, rn: u32, n: u32) -> u32 {
    0xD340_0000 | ((64 - n) & 63) << 16 | (63 - n) << 10 | rn << 5 | rd
}

pub const fn lsr(rd: u32, rn: u32, n: u32) -> u32 {
    0xD340_FC00 | n << 16 | rn << 5 | rd
}

/// A load (opc 1) or store (0), or a signed load (2, 3), of 1 << size bytes at rn + imm << size.
pub const fn access(size: u32, opc: u32, rt: u32, rn: u32, imm: u32) -> u32 {
    size << 30 | 0x3900_0000 | opc << 22 | imm << 10 | rn << 5 | rt
}

/// The same at a signed offset of nine bits: mode 0 unscaled, 1 post-indexed, 2 unprivileged, 3 pre-indexed.
pub const fn access_9(size: u32, opc: u32, mode: u32, rt: u32, rn: u32, imm: u32) -> u32 {
    size << 30 | 0x3800_0000 | opc << 22 | (imm & 0x1FF) << 12 | mode << 10 | rn << 5 | rt
}

/// The same at rn + rm.
pub const fn access_by(size: u32, opc: u32, rt: u32, rn: u32, rm: u32) -> u32 {
    size << 30 | 0x3820_6800 | opc << 22 | rm << 16 | rn << 5 | rt
}

pub const fn ldr(rt: u32, rn: u32, at: u32) -> u32 {
    access(3, 1, rt, rn, at / 8)
}

pub const fn str(rt: u32, rn: u32, at: u32) -> u32 {
    access(3, 0, rt, rn, at / 8)
}

pub const fn ldtr(rt: u32, rn: u32) -> u32 {
    access_9(3, 1, 2, rt, rn, 0)
}

pub const fn sttr(rt: u32, rn: u32) -> u32 {
    access_9(3, 0, 2, rt, rn, 0)
}

/// A pair: `load`, mode 1 post-indexed, 2 at an offset, 3 pre-indexed; the offset in units of eight bytes.
pub const fn pair(load: bool, mode: u32, rt: u32, rt2: u32, rn: u32, imm: u32) -> u32 {
    0xA800_0000 | mode << 23 | (load as u32) << 22 | (imm & 127) << 15 | rt2 << 10 | rn << 5 | rt
}

pub const fn ldxr(size: u32, rt: u32, rn: u32) -> u32 {
    size << 30 | 0x085F_7C00 | rn << 5 | rt
}

pub const fn stxr(size: u32, rs: u32, rt: u32, rn: u32) -> u32 {
    size << 30 | 0x0800_7C00 | rs << 16 | rn << 5 | rt
}

pub const fn ldar(size: u32, rt: u32, rn: u32) -> u32 {
    size << 30 | 0x08DF_FC00 | rn << 5 | rt
}

pub const fn stlr(size: u32, rt: u32, rn: u32) -> u32 {
    size << 30 | 0x089F_FC00 | rn << 5 | rt
}

/// A pair of exclusives: load, or store with its status in rs.
pub const fn exclusive_pair(load: bool, rs: u32, rt: u32, rt2: u32, rn: u32) -> u32 {
    0xC820_0000 | (load as u32) << 22 | rs << 16 | rt2 << 10 | rn << 5 | rt
}

/// A load of the word at a distance in words.
pub const fn ldr_literal(rt: u32, words: i32) -> u32 {
    0x5800_0000 | (words as u32 & 0x7FFFF) << 5 | rt
}

pub const fn b(words: i32) -> u32 {
    0x1400_0000 | words as u32 & 0x3FF_FFFF
}

pub const fn br(rn: u32) -> u32 {
    0xD61F_0000 | rn << 5
}

pub const fn blr(rn: u32) -> u32 {
    0xD63F_0000 | rn << 5
}

/// 1 SVC, 2 HVC, 3 SMC.
pub const fn call(kind: u32, imm: u32) -> u32 {
    0xD400_0000 | imm << 5 | kind
}

pub const fn brk(imm: u32) -> u32 {
    0xD420_0000 | imm << 5
}

/// A program: words from an address on, and labels.
pub struct Asm {
    pub at: u64,
    pub words: Vec<u32>,
    labels: Vec<(&'static str, usize)>,
    jumps: Vec<(usize, &'static str, u32)>,
}

impl Asm {
    pub fn new(at: u64) -> Asm {
        Asm {
            at,
            words: Vec::new(),
            labels: Vec::new(),
            jumps: Vec::new(),
        }
    }

    pub fn here(&self) -> u64 {
        self.at + 4 * self.words.len() as u64
    }

    pub fn put(&mut self, words: &[u32]) -> &mut Asm {
        self.words.extend_from_slice(words);
        self
    }

    pub fn label(&mut self, name: &'static str) -> &mut Asm {
        self.labels.push((name, self.words.len()));
        self
    }

    /// A constant into a register, by as many moves as it takes.
    pub fn li(&mut self, rd: u32, value: u64) -> &mut Asm {
        self.words.push(movz(rd, value as u32 & 0xFFFF, 0));
        for hw in 1..4 {
            let part = (value >> (16 * hw)) as u32 & 0xFFFF;
            if part != 0 {
                self.words.push(movk(rd, part, hw));
            }
        }
        self
    }

    /// A constant into a system register, by X0.
    pub fn set(&mut self, key: u32, value: u64) -> &mut Asm {
        self.li(0, value).put(&[msr(key, 0)])
    }

    /// A jump to a label: the word of a branch without its distance. 26 bits of B and BL, 19 of the others.
    pub fn jump(&mut self, word: u32, label: &'static str) -> &mut Asm {
        self.jumps.push((self.words.len(), label, word));
        self.words.push(0);
        self
    }

    pub fn go(&mut self, label: &'static str) -> &mut Asm {
        self.jump(0x1400_0000, label)
    }

    /// Branch if a condition holds: 0 EQ, 1 NE, 2 HS, 3 LO.
    pub fn when(&mut self, cond: u32, label: &'static str) -> &mut Asm {
        self.jump(0x5400_0000 | cond, label)
    }

    pub fn cbz(&mut self, rt: u32, label: &'static str) -> &mut Asm {
        self.jump(0xB400_0000 | rt, label)
    }

    pub fn cbnz(&mut self, rt: u32, label: &'static str) -> &mut Asm {
        self.jump(0xB500_0000 | rt, label)
    }

    pub fn address(&self, label: &str) -> u64 {
        let (_, at) = self
            .labels
            .iter()
            .find(|(name, _)| *name == label)
            .expect("a label");
        self.at + 4 * *at as u64
    }

    /// The words, with every jump's distance.
    pub fn done(mut self) -> (u64, Vec<u32>, Vec<(&'static str, u64)>) {
        for (from, label, word) in std::mem::take(&mut self.jumps) {
            let words = (self.address(label) as i64 - self.at as i64) / 4 - from as i64;
            self.words[from] = match word & 0x7C00_0000 {
                0x1400_0000 => word | words as u32 & 0x3FF_FFFF,
                _ => word | (words as u32 & 0x7FFFF) << 5,
            };
        }
        let labels = self
            .labels
            .iter()
            .map(|(name, at)| (*name, self.at + 4 * *at as u64))
            .collect();
        (self.at, self.words, labels)
    }
}
