//! Lines as eight words and answers as four; the codes stand in [`super`].
use crate::census;
use crate::op::{Ans, Line, Op};
use crate::wild::Part;
use crate::windows::Piece;
use pimu::aarch64::Exception;

pub fn exception(e: &Exception) -> [u64; 4] {
    match *e {
        Exception::Undefined => [0, 0, 0, 0],
        Exception::Svc(i) => [1, i.into(), 0, 0],
        Exception::Hvc(i) => [2, i.into(), 0, 0],
        Exception::Smc(i) => [3, i.into(), 0, 0],
        Exception::Brk(i) => [4, i.into(), 0, 0],
        Exception::DataAbort { addr, write, fsc } => [5, addr, write.into(), fsc.into()],
        Exception::InsnAbort { addr, fsc } => [6, addr, fsc.into(), 0],
        Exception::PcAlignment => [7, 0, 0, 0],
    }
}

fn flag(w: u64) -> Option<bool> {
    (w <= 1).then_some(w == 1)
}

fn exception_of(w: &[u64]) -> Option<Exception> {
    let immediate = || u16::try_from(w[1]).ok();
    let status = |i: usize| u8::try_from(w[i]).ok();
    Some(match w[0] {
        0 => Exception::Undefined,
        1 => Exception::Svc(immediate()?),
        2 => Exception::Hvc(immediate()?),
        3 => Exception::Smc(immediate()?),
        4 => Exception::Brk(immediate()?),
        5 => Exception::DataAbort {
            addr: w[1],
            write: flag(w[2])?,
            fsc: status(3)?,
        },
        6 => Exception::InsnAbort {
            addr: w[1],
            fsc: status(2)?,
        },
        7 => Exception::PcAlignment,
        _ => return None,
    })
}

pub fn encode(line: &Line) -> [u64; 8] {
    let words = match *line {
        Line::Fresh => vec![60],
        Line::Window(base, len) => vec![61, base, len],
        Line::Zero => vec![62],
        Line::Poke(addr, v) => vec![63, addr, v],
        Line::Core(n) => vec![64, n],
        Line::Put(Part::Hint(slot, key, pa)) => vec![65, slot.into(), key, pa],
        Line::Put(Part::Entry(slot, r)) => vec![66, slot.into(), r[0], r[1], r[2], r[3]],
        Line::Put(Part::Fetch(page, level, pa)) => vec![67, page, level.into(), pa],
        Line::Bytes(piece) => [vec![68], piece.words()].concat(),
        Line::Put(Part::Word(place, v)) => vec![69, place.into(), v],
        Line::Op(ref op) => operation(op),
    };
    let mut out = [0; 8];
    out[..words.len()].copy_from_slice(&words);
    out
}

fn operation(op: &Op) -> Vec<u64> {
    use Op::*;
    match *op {
        Translate(k, va) => vec![1, k.into(), va],
        DataPa(va) => vec![2, va],
        FetchPa(va) => vec![3, va],
        Load(va, n) => vec![4, va, n.into()],
        Store(va, n, v) => vec![5, va, n.into(), v],
        Fetch(va) => vec![6, va],
        Sys(a, b, c, d, r) => vec![7, a.into(), b.into(), c.into(), d.into(), r.into()],
        Reg(k, v) => vec![8, k.into(), v],
        Level(l) => vec![9, l.into()],
        Mark(m) => vec![10, m.into()],
        SetX(r, v) => vec![11, r.into(), v],
        Abort(e) => [&[12][..], &exception(&e)].concat(),
        Census(first, pages) => vec![13, first, pages],
        Windows => vec![14],
        Flip(k, user, va) => vec![15, k.into(), user.into(), va],
        LeafAsid => vec![20],
        LeafOn(r) => vec![21, r.into()],
        LeafUntag(r, va) => vec![22, r.into(), va],
        LeafWalk(r, va) => vec![23, r.into(), va],
        LeafBits(p) => vec![24, p],
        LeafPerm(p) => vec![25, p.into()],
        LeafBank(k) => vec![26, k.into()],
        LeafVector(a, b, s) => vec![27, a.into(), b.into(), s.into()],
        LeafSyndrome(e, a, b, pc) => [&[28, a.into(), b.into(), pc][..], &exception(&e)].concat(),
        PokeLevel(l) => vec![40, l.into()],
        PokePc(v) => vec![41, v],
        PokeSpsel(v) => vec![42, v.into()],
        PokeGeneration(g) => vec![43, g.into()],
        PokeCounters(v) => vec![44, v],
        TakeBroadcast => vec![45],
    }
}

/// `None` where the code, an exception, a mark, a kind, a view or a regime is none of those named.
pub fn decode(w: &[u64; 8]) -> Option<Line> {
    Some(match w[0] {
        60 => Line::Fresh,
        61 => Line::Window(w[1], w[2]),
        62 => Line::Zero,
        63 => Line::Poke(w[1], w[2]),
        64 => Line::Core(w[1]),
        65 => Line::Put(Part::Hint(w[1] as u16, w[2], w[3])),
        66 => Line::Put(Part::Entry(w[1] as u16, [w[2], w[3], w[4], w[5]])),
        67 => Line::Put(Part::Fetch(w[1], w[2] as u32, w[3])),
        68 => Line::Bytes(Piece::of_words(w[1], &w[2..])?),
        69 => Line::Put(Part::Word(w[1] as u16, w[2])),
        _ => Line::Op(operation_of(w)?),
    })
}

fn operation_of(w: &[u64; 8]) -> Option<Op> {
    use Op::*;
    let u = |i: usize| w[i] as u32;
    let kind = || [1, 2, 4].contains(&w[1]).then_some(w[1] as u8);
    let regime = || (1..=3).contains(&w[1]).then_some(w[1] as u8);
    Some(match w[0] {
        1 => Translate(kind()?, w[2]),
        2 => DataPa(w[1]),
        3 => FetchPa(w[1]),
        4 => Load(w[1], u(2)),
        5 => Store(w[1], u(2), w[3]),
        6 => Fetch(w[1]),
        7 => Sys(u(1), u(2), u(3), u(4), u(5)),
        8 => Reg(u(1), w[2]),
        9 => Level(u(1)),
        10 => Mark(flag(w[1])?),
        11 => SetX(u(1), w[2]),
        12 => Abort(exception_of(&w[1..])?),
        13 => Census(w[1], w[2]),
        14 => Windows,
        15 => Flip(kind()?, flag(w[2])?, w[3]),
        20 => LeafAsid,
        21 => LeafOn(regime()?),
        22 => LeafUntag(regime()?, w[2]),
        23 => LeafWalk(regime()?, w[2]),
        24 => LeafBits(w[1]),
        25 => LeafPerm(w[1] as u8),
        26 => LeafBank(u(1)),
        27 => LeafVector(u(1), u(2), w[3] != 0),
        28 => LeafSyndrome(exception_of(&w[4..])?, u(1), u(2), w[3]),
        40 => PokeLevel(u(1)),
        41 => PokePc(w[1]),
        42 => PokeSpsel(w[1] != 0),
        43 => PokeGeneration(u(1)),
        44 => PokeCounters(w[1]),
        45 => TakeBroadcast,
        _ => return None,
    })
}

pub fn encode_answer(a: &Ans) -> [u64; 4] {
    match *a {
        Ans::Ok => [0, 0, 0, 0],
        Ans::Val(v) => [1, v, 0, 0],
        Ans::None => [2, 0, 0, 0],
        Ans::Leaf(oa, perms, level, attr, sh, ns, global) => {
            let rights = u64::from(perms) | u64::from(level) << 8;
            let kind = u64::from(attr) | u64::from(sh) << 8 | u64::from(ns) << 16 | u64::from(global) << 24;
            [3, oa, rights, kind]
        }
        Ans::Pair(x, y) => [4, x, y, 0],
        Ans::Number(n) => [5, n.into(), 0, 0],
        Ans::Undefined => [6, 0, 0, 0],
        Ans::Unimplemented => [7, 0, 0, 0],
        Ans::Fault(x, s) => [8, x, s.into(), 0],
        Ans::Data(x, w, s) => [9, x, s.into(), w.into()],
        Ans::Insn(x, s) => [10, x, s.into(), 0],
        Ans::Counts(ref counts) => {
            let (n, digest) = census::summary(counts);
            [11, n, digest, 0]
        }
        Ans::Page(w, p, s) => [12, w, p, s.into()],
        Ans::Bit(a, b) => [13, a, b.into(), 0],
        Ans::Panic => [u64::MAX, 0, 0, 0],
    }
}

/// Any other code is [`Ans::Panic`], which equals no answer of the Rust. The counts of a census do not come back.
pub fn decode_answer(w: &[u64; 4]) -> Ans {
    match w[0] {
        0 => Ans::Ok,
        1 => Ans::Val(w[1]),
        2 => Ans::None,
        3 => Ans::Leaf(
            w[1],
            w[2] as u8,
            (w[2] >> 8) as u8,
            w[3] as u8,
            (w[3] >> 8) as u8,
            w[3] >> 16 & 1 != 0,
            w[3] >> 24 & 1 != 0,
        ),
        4 => Ans::Pair(w[1], w[2]),
        5 => Ans::Number(w[1] as u8),
        6 => Ans::Undefined,
        7 => Ans::Unimplemented,
        8 => Ans::Fault(w[1], w[2] as u8),
        9 => Ans::Data(w[1], w[3] != 0, w[2] as u8),
        10 => Ans::Insn(w[1], w[2] as u8),
        12 => Ans::Page(w[1], w[2], w[3] as u8),
        13 => Ans::Bit(w[1], w[2] as u8),
        _ => Ans::Panic,
    }
}
