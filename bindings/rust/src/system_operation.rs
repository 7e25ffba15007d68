//! System operations: TLBI, AT, DC and IC.

/// A SYS instruction: TLBI, AT, DC and IC operations by their encoding.
#[derive(Clone, Copy, Debug, PartialEq, Eq, Hash)]
pub struct SystemOperation {
    /// 0 to 7.
    pub op1: u64,
    /// 0 to 15.
    pub crn: u64,
    /// 0 to 15.
    pub crm: u64,
    /// 0 to 7.
    pub op2: u64,
    /// The general register's number; 31 is zero.
    pub rt: u64,
}

impl SystemOperation {
    /// The operation of these fields.
    pub const fn new(op1: u64, crn: u64, crm: u64, op2: u64, rt: u64) -> SystemOperation {
        SystemOperation {
            op1,
            crn,
            crm,
            op2,
            rt,
        }
    }

    /// The operation that an instruction word encodes; `None` where it is no SYS.
    pub const fn decode(instruction: u32) -> Option<SystemOperation> {
        if instruction & 0xFFF8_0000 != 0xD508_0000 {
            return None;
        }
        let i = instruction as u64;
        Some(SystemOperation::new(
            i >> 16 & 7,
            i >> 12 & 15,
            i >> 8 & 15,
            i >> 5 & 7,
            i & 31,
        ))
    }

    /// The manual's name of the operation, whatever its register, where it is one of those named here.
    pub fn name(&self) -> Option<&'static str> {
        let fields = (self.op1, self.crn, self.crm, self.op2);
        NAMES
            .iter()
            .find(|(known, _)| *known == fields)
            .map(|(_, name)| *name)
    }
}

/// Operations that take no register, as constants, and those that take one, as functions of its number; and the table
/// of all.
macro_rules! operations {
    ($($constant:ident, $bare:literal: $a:literal $b:literal $c:literal $d:literal;)* =>
        $($function:ident, $name:literal: $op1:literal $crn:literal $crm:literal $op2:literal;)*) => {
        impl SystemOperation {
            $(#[doc = concat!($bare, ".")]
            pub const $constant: SystemOperation = SystemOperation::new($a, $b, $c, $d, 31);)*

            $(#[doc = concat!($name, " of what a register holds.")]
            pub const fn $function(rt: u64) -> SystemOperation {
                SystemOperation::new($op1, $crn, $crm, $op2, rt)
            })*
        }

        /// op1, CRn, CRm and op2, and the name.
        const NAMES: &[((u64, u64, u64, u64), &str)] = &[
            $((($a, $b, $c, $d), $bare),)*
            $((($op1, $crn, $crm, $op2), $name),)*
        ];
    };
}

operations! {
    TLBI_VMALLE1IS, "TLBI VMALLE1IS": 0 8 3 0;
    TLBI_VMALLE1, "TLBI VMALLE1": 0 8 7 0;
    TLBI_ALLE2IS, "TLBI ALLE2IS": 4 8 3 0;
    TLBI_ALLE1IS, "TLBI ALLE1IS": 4 8 3 4;
    TLBI_VMALLS12E1IS, "TLBI VMALLS12E1IS": 4 8 3 6;
    TLBI_ALLE2, "TLBI ALLE2": 4 8 7 0;
    TLBI_ALLE1, "TLBI ALLE1": 4 8 7 4;
    TLBI_VMALLS12E1, "TLBI VMALLS12E1": 4 8 7 6;
    TLBI_ALLE3IS, "TLBI ALLE3IS": 6 8 3 0;
    TLBI_ALLE3, "TLBI ALLE3": 6 8 7 0;
    IC_IALLUIS, "IC IALLUIS": 0 7 1 0;
    IC_IALLU, "IC IALLU": 0 7 5 0;
    =>
    tlbi_vae1is, "TLBI VAE1IS": 0 8 3 1;
    tlbi_aside1is, "TLBI ASIDE1IS": 0 8 3 2;
    tlbi_vaae1is, "TLBI VAAE1IS": 0 8 3 3;
    tlbi_vale1is, "TLBI VALE1IS": 0 8 3 5;
    tlbi_vaale1is, "TLBI VAALE1IS": 0 8 3 7;
    tlbi_vae1, "TLBI VAE1": 0 8 7 1;
    tlbi_aside1, "TLBI ASIDE1": 0 8 7 2;
    tlbi_vaae1, "TLBI VAAE1": 0 8 7 3;
    tlbi_vale1, "TLBI VALE1": 0 8 7 5;
    tlbi_vaale1, "TLBI VAALE1": 0 8 7 7;
    tlbi_ipas2e1is, "TLBI IPAS2E1IS": 4 8 0 1;
    tlbi_ipas2le1is, "TLBI IPAS2LE1IS": 4 8 0 5;
    tlbi_vae2is, "TLBI VAE2IS": 4 8 3 1;
    tlbi_vale2is, "TLBI VALE2IS": 4 8 3 5;
    tlbi_ipas2e1, "TLBI IPAS2E1": 4 8 4 1;
    tlbi_ipas2le1, "TLBI IPAS2LE1": 4 8 4 5;
    tlbi_vae2, "TLBI VAE2": 4 8 7 1;
    tlbi_vale2, "TLBI VALE2": 4 8 7 5;
    tlbi_vae3is, "TLBI VAE3IS": 6 8 3 1;
    tlbi_vale3is, "TLBI VALE3IS": 6 8 3 5;
    tlbi_vae3, "TLBI VAE3": 6 8 7 1;
    tlbi_vale3, "TLBI VALE3": 6 8 7 5;
    at_s1e1r, "AT S1E1R": 0 7 8 0;
    at_s1e1w, "AT S1E1W": 0 7 8 1;
    at_s1e0r, "AT S1E0R": 0 7 8 2;
    at_s1e0w, "AT S1E0W": 0 7 8 3;
    at_s1e2r, "AT S1E2R": 4 7 8 0;
    at_s1e2w, "AT S1E2W": 4 7 8 1;
    at_s12e1r, "AT S12E1R": 4 7 8 4;
    at_s12e1w, "AT S12E1W": 4 7 8 5;
    at_s12e0r, "AT S12E0R": 4 7 8 6;
    at_s12e0w, "AT S12E0W": 4 7 8 7;
    at_s1e3r, "AT S1E3R": 6 7 8 0;
    at_s1e3w, "AT S1E3W": 6 7 8 1;
    dc_zva, "DC ZVA": 3 7 4 1;
    dc_ivac, "DC IVAC": 0 7 6 1;
    dc_isw, "DC ISW": 0 7 6 2;
    dc_csw, "DC CSW": 0 7 10 2;
    dc_cisw, "DC CISW": 0 7 14 2;
    dc_cvac, "DC CVAC": 3 7 10 1;
    dc_cvau, "DC CVAU": 3 7 11 1;
    dc_civac, "DC CIVAC": 3 7 14 1;
    ic_ivau, "IC IVAU": 3 7 5 1;
}
