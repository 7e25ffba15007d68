//! The refusals 1 to 7 and 9 of docs/SCOPE.md; 8 is that of four cores ([`crate::cluster`]).
use crate::count::MOST_PAGES;
use crate::op::Op;
use crate::windows::List;
use crate::Ram;

/// Whether the range has too many pages or passes 2^64; one that ends there does not pass it.
pub fn over(first: u64, pages: u64) -> bool {
    let start = u128::from(first & !0xFFF);
    pages > MOST_PAGES || start + 4096 * u128::from(pages) > 1 << 64
}

/// The number of the first check that the operation misses, top to bottom. `level` is the present level, `kept`
/// says which keys a register write takes. Leaves and pokes stand outside the list and are never refused.
pub fn refusal(op: &Op, level: u32, ram: &Ram, kept: impl Fn(u32) -> bool) -> Option<u8> {
    use Op::*;
    if !op.is_step() {
        return None;
    }
    if level > 3 || matches!(*op, Level(l) if l > 3) {
        return Some(1);
    }
    if op.takes_ram() && ram.end() > 1 << 64 {
        return Some(2);
    }
    match *op {
        Load(_, n) | Store(_, n, _) if !matches!(n, 1 | 2 | 4 | 8) => Some(3),
        Sys(op1, crn, crm, op2, _) if op1 > 7 || op2 > 7 || crn > 15 || crm > 15 => Some(4),
        Sys(_, _, _, _, r) | SetX(r, _) if r > 31 => Some(5),
        Reg(k, _) if !kept(k) => Some(6),
        Census(first, pages) if over(first, pages) => Some(7),
        Windows if List::read(&ram.list).is_none() => Some(9),
        _ => None,
    }
}
