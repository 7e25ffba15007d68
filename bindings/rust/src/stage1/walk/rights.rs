// Written by tools/plain from crates/walk/src/rights.rt: change that.
//! Permissions.

/// How far the rights of the regime's own level stand above those of EL0.
pub const PRIV: u32 = 3;

/// The attributes of a leaf that decide permission, as the tables above it leave them.
#[derive(Clone, Copy, Debug, PartialEq, Eq)]
pub struct Permissions {
    /// AP<2>: none may write.
    pub ap2: bool,
    /// AP<1>: EL0 may read.
    pub ap1: bool,
    /// UXN, or XN: EL0, or EL2 or EL3, may not execute.
    pub xn: bool,
    /// PXN: EL1 may not execute.
    pub pxn: bool,
}

/// Read 1, write 2, fetch 4.
#[inline(always)]
pub fn perm_bits(r: bool, w: bool, x: bool) -> u8 {
    u8::from(r) | u8::from(w) << 1 | u8::from(x) << 2
}

impl Permissions {
    /// The rights that a leaf gives: EL0's in bits 0 to 2, the regime's own in bits 3 to 5. ARMv8.0: EL0 may execute
    /// what it cannot read, and EL1 not what EL0 may write.
    #[inline(always)]
    pub fn byte(self, singlepriv: bool, wxn: bool) -> u8 {
        let priv_w = !self.ap2;
        if singlepriv {
            let x = !(self.xn || (priv_w && wxn));
            perm_bits(true, priv_w, x) << PRIV
        } else {
            let user_w = self.ap1 && !self.ap2;
            let user_x = !(self.xn || (user_w && wxn));
            let priv_x = !(self.pxn || (priv_w && wxn) || user_w);
            perm_bits(self.ap1, user_w, user_x) | perm_bits(true, priv_w, priv_x) << PRIV
        }
    }
}
