// Written by tools/plain from crates/quick/src/sys.rt: change that.
//! A system operation on a core that is lent: its number, RAM, and in ans the address of a data abort and what it read.

use crate::stage1::call_words::reply::{self, Report};
use crate::stage1::cpu::{Core, check};
use crate::stage1::system::decode;
use crate::stage1::system::decode::{Encoding, SysOp};
use crate::stage1::tlb::access::Kind;
use crate::stage1::tlb::work::Work;
use crate::stage1::word::ram;

/// 64 zero bytes at the line va by its page's hint, where it points at a line of RAM, and whether they are written.
#[inline]
fn clear(core: &Core, base: u64, ram: &mut [u8], va: u64) -> bool {
    match core.tlb.by_hint(core.privilege, va, Kind::Write) {
        Some(pa) => pa % 64 == 0 && ram::write_bytes(base, ram, 64, pa, 0),
        None => false,
    }
}

/// DC ZVA: by one hint, or by its eight stores.
#[inline]
fn zva(core: &mut Core, ans: &mut Report, base: u64, ram: &mut [u8], x: u64) -> u64 {
    if clear(core, base, ram, x - x % 64) {
        ans.reads = 0;
        return 0;
    }
    let mut work = Work::none();
    let answer = core.zva(base, ram, x, &mut work);
    reply::stored(answer, work, ans)
}

/// TLBI, out of line, so that its loop over the entries has the registers to itself.
#[inline(never)]
fn tlbi(core: &mut Core, e: Encoding, x: u64) {
    core.tlbi(e, x);
}

/// The operation past its checks.
#[inline]
fn operate(core: &mut Core, e: Encoding, ans: &mut Report, base: u64, ram: &mut [u8]) -> u64 {
    let x = core.reg(e.rt);
    match decode::decode(core.privilege.level, e) {
        SysOp::At(form) => {
            let mut work = Work::none();
            core.at(base, ram, form, x, &mut work);
            ans.reads = work.reads;
            0
        }
        SysOp::Tlbi => {
            tlbi(core, e, x);
            ans.reads = 0;
            0
        }
        SysOp::Zva => zva(core, ans, base, ram, x),
        SysOp::Nothing => {
            ans.reads = 0;
            0
        }
        SysOp::Undefined => 65,
        SysOp::Unimplemented => 66,
    }
}

/// A system operation: SYS op1, CRn, CRm, op2 with the register rt.
#[inline]
pub fn system(
    core: &mut Core,
    op1: u64,
    crn: u64,
    crm: u64,
    op2: u64,
    rt: u64,
    ans: &mut Report,
    base: u64,
    ram: &mut [u8],
) -> u64 {
    let e = Encoding {
        op1,
        crn,
        crm,
        op2,
        rt,
    };
    match check::system(core.privilege.level, base, ram.len() as u64, e) {
        Ok(()) => operate(core, e, ans, base, ram),
        Err(missed) => missed.number() as u64,
    }
}
