//! What the guests stand on: RAM's layout, tables, boot code, vectors.
use crate::bus::Bus;
use crate::encode::*;

pub const BASE: u64 = 0x4000_0000;
pub const LEN: usize = 0x20_0000;
/// Vectors of EL1, EL2, EL3.
pub const VECTORS: [u64; 4] = [0, BASE + 0x1000, BASE + 0x1800, BASE + 0x2000];
/// What a guest found, word by word, and what its vectors saw: ESR, FAR and ELR of each exception.
pub const RESULTS: u64 = BASE + 0x4000;
pub const ABORTS: u64 = BASE + 0x6000;
pub const CODE: u64 = BASE + 0x8000;
pub const TABLES: u64 = BASE + 0x2_0000;
pub const FRAMES: u64 = BASE + 0x10_0000;

/// 39 bits of address, pages of 4 KiB, no upper range.
pub const TCR: u64 = 25 | 1 << 23 | 2 << 30;
pub const SCTLR_ON: u64 = 0x30D0_0801;
/// Attributes of a leaf: page, access flag; not global; for EL0; read only; not executable by EL1, by EL0.
pub const PAGE: u64 = 3 | 1 << 10;
pub const BLOCK: u64 = 1 | 1 << 10;
pub const NG: u64 = 1 << 11;
pub const USER: u64 = 1 << 6;
pub const READ_ONLY: u64 = 1 << 7;
pub const PXN: u64 = 1 << 53;
pub const UXN: u64 = 1 << 54;

/// A guest: what lies in RAM, where each core begins, when the first has ended, and what is then known.
pub struct Guest {
    pub name: &'static str,
    pub bus: Bus,
    pub starts: Vec<u64>,
    pub end: u64,
    pub known: Vec<(u64, u64)>,
}

/// A guest in the making.
pub struct Scene {
    pub bus: Bus,
    next_table: u64,
}

impl Default for Scene {
    fn default() -> Scene {
        Scene::new()
    }
}

impl Scene {
    pub fn new() -> Scene {
        Scene {
            bus: Bus::new(BASE, LEN),
            next_table: TABLES,
        }
    }

    /// A page of zeroes for a table.
    pub fn table(&mut self) -> u64 {
        self.next_table += 0x1000;
        self.next_table - 0x1000
    }

    /// A root of level 1 in which RAM is its own address, for EL1 alone, executable.
    pub fn root(&mut self) -> u64 {
        let root = self.table();
        self.map_block(root, BASE, BASE | BLOCK | UXN);
        root
    }

    /// The address of the descriptor of level 2, or 3, for an address; tables are made on the way.
    pub fn descriptor(&mut self, root: u64, va: u64, level: u32) -> u64 {
        let mut table = root;
        for l in 1..level {
            let at = table + (va >> (39 - 9 * l) & 511) * 8;
            if self.bus.peek(at) == 0 {
                let next = self.table();
                self.bus.poke(at, next | 3);
            }
            table = self.bus.peek(at) & 0xFFFF_FFFF_F000;
        }
        table + (va >> (39 - 9 * level) & 511) * 8
    }

    pub fn map(&mut self, root: u64, va: u64, descriptor: u64) -> u64 {
        let at = self.descriptor(root, va, 3);
        self.bus.poke(at, descriptor);
        at
    }

    pub fn map_block(&mut self, root: u64, va: u64, descriptor: u64) -> u64 {
        let at = self.descriptor(root, va, 2);
        self.bus.poke(at, descriptor);
        at
    }

    /// Vectors of a level that write down ESR, FAR and ELR where X27 points, and return: behind the instruction, or after
    /// an instruction abort to X28.
    pub fn vectors(&mut self, el: u32) {
        for group in [0x000, 0x200, 0x400] {
            let mut v = Asm::new(VECTORS[el as usize] + group);
            for key in [ESR_EL1, FAR_EL1, ELR_EL1] {
                v.put(&[mrs(29, at_level(key, el)), access_9(3, 0, 1, 29, 27, 8)]);
            }
            v.put(&returns(el));
            self.code(v);
        }
    }

    /// Put a program into RAM; its labels' addresses.
    pub fn code(&mut self, program: Asm) -> Vec<(&'static str, u64)> {
        let (at, words, labels) = program.done();
        self.bus.code(at, &words);
        labels
    }

    pub fn guest(mut self, name: &'static str, program: Asm, known: Vec<(u64, u64)>) -> Guest {
        let start = program.at;
        let labels = self.code(program);
        let end = labels
            .iter()
            .find(|(label, _)| *label == "end")
            .expect("a label named end")
            .1;
        Guest {
            name,
            bus: self.bus,
            starts: vec![start],
            end,
            known,
        }
    }
}

/// How a vector of a level returns; it uses X29 and X30.
pub fn returns(el: u32) -> Vec<u32> {
    let (esr, elr) = (at_level(ESR_EL1, el), at_level(ELR_EL1, el));
    let mut v = Asm::new(0);
    v.put(&[
        mrs(29, esr),
        lsr(29, 29, 26),
        sub_imm(30, 29, 0x20),
        lsr(30, 30, 1),
    ]);
    v.cbz(30, "fetch").put(&[sub_imm(29, 29, 0x15), lsr(30, 29, 2)]);
    // SVC, HVC and SMC (classes 0x15 to 0x17) return behind themselves.
    v.cbz(30, "back")
        .put(&[mrs(30, elr), add_imm(30, 30, 4), msr(elr, 30)]);
    v.label("back")
        .put(&[ERET])
        .label("fetch")
        .put(&[msr(elr, 28), ERET]);
    v.done().1
}

/// From EL3 to a lower level, at the next instruction, all interrupts masked.
pub fn lower_to(program: &mut Asm, from: u32, spsr: u64) {
    program.li(0, spsr).put(&[msr(at_level(SPSR_EL1, from), 0)]);
    program.li(0, 0).put(&[0x1000_0000 | 4 << 5]); // ADR X0, four words on
    program.put(&[msr(at_level(ELR_EL1, from), 0), ERET, NOP]);
}

/// From reset: vectors, EL1 with the tables of a root, stage 1 on.
pub fn boot(program: &mut Asm, root: u64) {
    program.set(VBAR_EL1, VECTORS[1]).li(26, RESULTS).li(27, ABORTS);
    lower_to(program, 3, 0x3C5);
    stage1(program, root);
}

pub fn stage1(program: &mut Asm, root: u64) {
    program
        .set(TCR_EL1, TCR)
        .set(TTBR0_EL1, root)
        .set(MAIR_EL1, 0x44FF);
    program.set(SCTLR_EL1, SCTLR_ON).put(&[ISB]);
}

/// A load whose value is written down.
pub fn hear(program: &mut Asm, va: u64) {
    program.li(0, va).put(&[ldr(1, 0, 0)]);
    tell(program, 1);
}

/// A register's value is written down.
pub fn tell(program: &mut Asm, register: u32) {
    program.put(&[access_9(3, 0, 1, register, 26, 8)]);
}

pub fn store(program: &mut Asm, va: u64, value: u64) {
    program.li(0, va).li(1, value).put(&[str(1, 0, 0)]);
}

/// `TLBI` by a value in a register.
pub fn tlbi(program: &mut Asm, operation: [u32; 4], value: u64) {
    program.li(0, value).put(&[DSB, sys(operation, 0), DSB, ISB]);
}

/// Words from an address on.
pub fn words(from: u64, values: &[u64]) -> Vec<(u64, u64)> {
    (from..).step_by(8).zip(values.iter().copied()).collect()
}

/// What the vectors write down of aborts, by ESR and FAR: ELR is left out.
pub fn aborts(seen: &[(u64, u64)]) -> Vec<(u64, u64)> {
    let each = (ABORTS..).step_by(24).zip(seen);
    each.flat_map(|(at, (esr, far))| [(at, *esr), (at + 8, *far)])
        .collect()
}
