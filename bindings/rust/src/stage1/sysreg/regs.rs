// Written by tools/plain from crates/sysreg/src/regs.rt: change that.
//! The registers as two structs: what translation reads, and the rest. Arrays are indexed by exception level; index 0 is
//! never written.

/// `SCR_EL3.NS`: EL0 to EL2 are Non-secure.
pub const SCR_NS: u64 = 1 << 0;
/// `SCR_EL3.SMD`: SMC is UNDEFINED.
pub const SCR_SMD: u64 = 1 << 7;
/// `SCR_EL3.HCE`: HVC is not UNDEFINED.
pub const SCR_HCE: u64 = 1 << 8;
/// `HCR_EL2.DC`: stage 1 of Non-secure EL1&0 is off.
pub const HCR_DC: u64 = 1 << 12;
/// `HCR_EL2.TSC`: SMC of Non-secure EL1 is trapped.
pub const HCR_TSC: u64 = 1 << 19;
/// `HCR_EL2.TGE`: exceptions of Non-secure EL0 go to EL2, and stage 1 of Non-secure EL1&0 is off.
pub const HCR_TGE: u64 = 1 << 27;
/// `SCTLR_ELx.M`: stage 1 translation on.
pub const SCTLR_M: u64 = 1 << 0;
/// `SCTLR_ELx.WXN`: what may be written is not executed.
pub const SCTLR_WXN: u64 = 1 << 19;

/// All that translation reads.
#[derive(Clone, Copy, Debug, PartialEq, Eq)]
pub struct Control {
    pub sctlr: [u64; 4],
    pub tcr: [u64; 4],
    pub ttbr0: [u64; 4],
    pub ttbr1_el1: u64,
    pub scr_el3: u64,
    pub hcr_el2: u64,
}

/// The other registers kept.
#[derive(Clone, Copy, Debug, PartialEq, Eq)]
pub struct SysRegs {
    pub mair: [u64; 4],
    pub vbar: [u64; 4],
    pub elr: [u64; 4],
    pub spsr: [u64; 4],
    pub esr: [u64; 4],
    pub far: [u64; 4],
    pub vpidr_el2: u64,
    pub vmpidr_el2: u64,
    pub par_el1: u64,
}

/// The translation regimes EL1&0, EL2 and EL3, each by the exception level whose registers it uses.
#[derive(Clone, Copy, PartialEq, Eq, Debug)]
pub enum Regime {
    El1 = 1,
    El2,
    El3,
}

/// A number other than 1, 2 and 3, which name a regime.
#[derive(Clone, Copy, Debug, PartialEq, Eq)]
pub struct NoSuchRegime(pub u64);

/// A register kept; of one that is banked by exception level, the level's instance.
#[derive(Clone, Copy, Debug, PartialEq, Eq)]
pub enum Register {
    Sctlr(Regime),
    Tcr(Regime),
    Ttbr0(Regime),
    Ttbr1,
    Scr,
    Hcr,
    Mair(Regime),
    Vbar(Regime),
    Elr(Regime),
    Spsr(Regime),
    Esr(Regime),
    Far(Regime),
    Vpidr,
    Vmpidr,
    Par,
}

impl TryFrom<u64> for Regime {
    type Error = NoSuchRegime;

    #[inline]
    fn try_from(number: u64) -> Result<Regime, NoSuchRegime> {
        match number {
            1 => Ok(Regime::El1),
            2 => Ok(Regime::El2),
            3 => Ok(Regime::El3),
            _ => Err(NoSuchRegime(number)),
        }
    }
}

impl From<Regime> for u64 {
    #[inline]
    fn from(regime: Regime) -> u64 {
        regime as u64
    }
}

impl Regime {
    /// The regime of an exception level: EL0 shares that of EL1.
    #[inline]
    pub fn of_level(level: u8) -> Self {
        match level {
            2 => Regime::El2,
            3 => Regime::El3,
            _ => Regime::El1,
        }
    }

    /// Whether the regime has one privilege level and one range of addresses.
    #[inline]
    pub fn is_single(self) -> bool {
        self != Regime::El1
    }

    /// The place of the regime's own register in an array.
    #[inline]
    pub fn index(self) -> usize {
        self as usize
    }
}

impl Control {
    /// Reset: `SCTLR_ELx` have their RES1 bits (A72 TRM), what is left UNKNOWN is 0.
    #[inline]
    pub fn new() -> Self {
        Control {
            sctlr: [0, 0x30D0_0800, 0x30C5_0830, 0x30C5_0830],
            tcr: [0; 4],
            ttbr0: [0; 4],
            ttbr1_el1: 0,
            scr_el3: 0,
            hcr_el2: 0,
        }
    }
}

impl SysRegs {
    /// Reset: `VPIDR_EL2` and `VMPIDR_EL2` are the IDs of core 0, so that EL1 sees them where EL2 sets nothing.
    #[inline]
    pub fn new() -> Self {
        SysRegs {
            mair: [0; 4],
            vbar: [0; 4],
            elr: [0; 4],
            spsr: [0; 4],
            esr: [0; 4],
            far: [0; 4],
            vpidr_el2: 0x410F_D083,
            vmpidr_el2: 0x8000_0000,
            par_el1: 0,
        }
    }
}
