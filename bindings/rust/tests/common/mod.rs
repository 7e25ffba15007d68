//! What the tests share: RAM with tables, and a core that uses them.
use a72::{Core, Ram, registers};

pub const BASE: u64 = 0x4000_0000;

/// 1 MiB: tables in the first pages. Page 1 may be written, page 2 only be read, page 3 is not mapped, page 4 lies
/// outside RAM, page 5 is of one ASID.
pub fn bytes() -> Vec<u8> {
    let mut bytes = vec![0; 0x10_0000];
    let mut ram = Ram::new(BASE, &mut bytes);
    ram.write_u64(BASE + 0x1000, (BASE + 0x2000) | 3);
    ram.write_u64(BASE + 0x2000, (BASE + 0x3000) | 3);
    for (page, descriptor) in [
        (1, (BASE + 0x8000) | 0x403),
        (2, (BASE + 0x9000) | 0x483),
        (4, 0x8000_0000 | 0x403),
        (5, (BASE + 0xA000) | 0xC03),
    ] {
        ram.write_u64(BASE + 0x3000 + 8 * page, descriptor);
    }
    bytes
}

/// At EL1, with stage 1 on.
pub fn core() -> Core {
    let mut core = Core::new();
    core.write_register(registers::TCR_EL1, 25 | 2 << 30).unwrap();
    core.write_register(registers::TTBR0_EL1, BASE + 0x1000).unwrap();
    core.write_register(registers::SCTLR_EL1, 1).unwrap();
    core.set_level(1).unwrap();
    core
}
