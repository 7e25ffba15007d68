//! Keys of the registers that a trace writes; arrays are by level.
use pimu::aarch64::sysreg::key;

const fn by_level(crn: u32, crm: u32, op2: u32) -> [u32; 4] {
    [
        0,
        key(3, 0, crn, crm, op2),
        key(3, 4, crn, crm, op2),
        key(3, 6, crn, crm, op2),
    ]
}

pub const SCTLR: [u32; 4] = by_level(1, 0, 0);
pub const TCR: [u32; 4] = by_level(2, 0, 2);
pub const TTBR0: [u32; 4] = by_level(2, 0, 0);
pub const TTBR1: u32 = key(3, 0, 2, 0, 1);
pub const MAIR: [u32; 4] = by_level(10, 2, 0);
pub const VBAR: [u32; 4] = by_level(12, 0, 0);
pub const HCR: u32 = key(3, 4, 1, 1, 0);
pub const SCR: u32 = key(3, 6, 1, 1, 0);

/// Every key that a register write takes.
pub fn all() -> Vec<u32> {
    let mut k = vec![
        TTBR1,
        HCR,
        SCR,
        key(3, 4, 0, 0, 0),
        key(3, 4, 0, 0, 5),
        key(3, 0, 7, 4, 0),
    ];
    for op1 in [0, 4, 6] {
        let banks = [
            (1, 0, 0),
            (2, 0, 0),
            (2, 0, 2),
            (10, 2, 0),
            (12, 0, 0),
            (4, 0, 0),
            (4, 0, 1),
            (5, 2, 0),
            (6, 0, 0),
        ];
        k.extend(banks.map(|(crn, crm, op2)| key(3, op1, crn, crm, op2)));
    }
    k
}
