// Written by tools/plain from crates/tlb/src/fresh.rt: change that.
//! The judged fresh answer: how an access ends with nothing cached.

use crate::stage1::fault::Fault;
use crate::stage1::sysreg::regs::Regime;
use crate::stage1::tlb::access::Kind;
use crate::stage1::tlb::entry::Entry;
use crate::stage1::walk::fresh::Fresh;
use crate::stage1::walk::regime::Bank;

/// The answer to an access at `va` with nothing cached, in the regime whose registers are `s`, over the RAM that
/// starts at `base`: the physical address, or the fault of the walk or of the permission check. It is judged by EL0's
/// rights or by the regime's own, whatever the level.
#[inline(always)]
pub fn fresh_answer(
    s: Bank,
    regime: Regime,
    user: bool,
    kind: Kind,
    va: u64,
    base: u64,
    ram: &[u8],
) -> Result<u64, Fault> {
    match s.fresh(regime, va, base, ram) {
        Fresh::Flat(pa) => Ok(pa),
        // as the entry that the leaf becomes: its ASID and its tag count for nothing
        Fresh::Ended(Ok(leaf)) => Entry::new(leaf, 0, 0).judge(user, kind, va),
        Fresh::Ended(Err(code)) => Err(crate::stage1::fault::first(code)),
    }
}
