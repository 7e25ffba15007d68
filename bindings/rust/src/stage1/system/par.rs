// Written by tools/plain from crates/system/src/par.rt: change that.
//! PAR_EL1 after an AT. It walks afresh: no cache stands here.

use crate::stage1::sysreg::regs::{Control, Regime, SCR_NS};
use crate::stage1::system::decode::AtForm;
use crate::stage1::tlb::access::{self, Kind};
use crate::stage1::walk::fresh::Fresh;
use crate::stage1::walk::fsc::FSC_PERMISSION;
use crate::stage1::walk::level::Leaf;
use crate::stage1::walk::regime::Bank;

/// PA<47:12>, and bit 11, which is RES1.
const PAR_PA: u64 = 0xFFFF_FFFF_F000;

const PAR_RES1: u64 = 1 << 11;

/// A translation: ATTR<63:56>, PA<47:12>, NS<9>, SH<8:7>.
#[inline]
fn success_par(attr: u64, pa: u64, ns: bool, sh: u64) -> u64 {
    attr << 56 | pa & PAR_PA | PAR_RES1 | (ns as u64) << 9 | sh << 7
}

/// A fault: FST<6:1>, F<0>.
#[inline]
fn fault_par(fsc: u8) -> u64 {
    1 | (fsc as u64) << 1 | PAR_RES1
}

/// A leaf: its page and attributes, or a permission fault of its level.
#[inline]
fn leaf_par(mair: u64, ns: bool, form: AtForm, leaf: Leaf) -> u64 {
    let kind = if form.write { Kind::Write } else { Kind::Read };
    if leaf.perms >> access::right_of(kind, form.user) & 1 == 0 {
        return fault_par(FSC_PERMISSION | leaf.level);
    }
    let attr = mair >> (8 * (leaf.desc >> 2 & 7)) & 0xFF;
    let ns = ns || leaf.desc >> 5 & 1 != 0;
    success_par(attr, leaf.oa, ns, leaf.desc >> 8 & 3)
}

/// PAR_EL1 after an AT of the form at `va`, stage 1 alone (DDI 0487, D17.2.113), and the number of descriptors that its
/// walk reads; `mair` is the regime's. It never uses or fills the cache.
#[inline(always)]
pub fn at(control: &Control, mair: u64, form: AtForm, va: u64, base: u64, ram: &[u8]) -> (u64, u8) {
    let regime = form.regime;
    let s = Bank::new(control, regime);
    // EL3 is always Secure
    let ns = regime != Regime::El3 && s.scr_el3 & SCR_NS != 0;
    let (fresh, reads) = s.fresh_with_reads(regime, va, base, ram);
    let par = match fresh {
        Fresh::Ended(Ok(leaf)) => leaf_par(mair, ns, form, leaf),
        Fresh::Ended(Err(fsc)) => fault_par(fsc),
        Fresh::Flat(pa) => success_par(0, pa, ns, 0),
    };
    (par, reads)
}
