//! The one-line text forms of lines and answers: all numbers hexadecimal, no prefix; `#` starts a comment.
use crate::census;
use crate::op::{Ans, Line, Op};
use crate::wild::Part;
use crate::windows::Piece;
use pimu::aarch64::Exception;
use std::fmt::{self, Display, Formatter};

impl Display for Ans {
    fn fmt(&self, f: &mut Formatter) -> fmt::Result {
        match *self {
            Ans::Ok => write!(f, "ok"),
            Ans::Val(v) => write!(f, "val {v:x}"),
            Ans::None => write!(f, "none"),
            Ans::Leaf(oa, p, l, a, s, n, g) => {
                write!(f, "leaf {oa:x} {p:x} {l} {a} {s} {} {}", n as u8, g as u8)
            }
            Ans::Pair(a, b) => write!(f, "pair {a:x} {b:x}"),
            Ans::Counts(ref counts) => {
                let (n, digest) = census::summary(counts);
                write!(f, "counts {n:x}:{digest:016x}")
            }
            Ans::Number(n) => write!(f, "no {n}"),
            Ans::Page(w, p, s) => write!(f, "page {w:x} {p:x} {s:02x}"),
            Ans::Bit(a, b) => write!(f, "bit {a:x} {b:x}"),
            Ans::Undefined => write!(f, "undefined"),
            Ans::Unimplemented => write!(f, "unimplemented"),
            Ans::Fault(a, s) => write!(f, "fault {a:x} {s:02x}"),
            Ans::Data(a, w, s) => write!(f, "data {a:x} {} {s:02x}", w as u8),
            Ans::Insn(a, s) => write!(f, "insn {a:x} {s:02x}"),
            Ans::Panic => write!(f, "panic"),
        }
    }
}

impl Ans {
    /// What its line only sums up, for reading: a line for each end that pages of a census have.
    pub fn full(&self) -> String {
        let Ans::Counts(counts) = self else {
            return String::new();
        };
        census::ends(counts)
            .map(|(end, n)| format!("  {end}: {n}\n"))
            .collect()
    }
}

impl Display for Line {
    fn fmt(&self, f: &mut Formatter) -> fmt::Result {
        match *self {
            Line::Fresh => write!(f, "fresh"),
            Line::Window(b, n) => write!(f, "window {b:x} {n:x}"),
            Line::Zero => write!(f, "zero"),
            Line::Core(n) => write!(f, "core {n:x}"),
            Line::Poke(a, v) => write!(f, "poke {a:x} {v:x}"),
            Line::Put(Part::Word(i, v)) => write!(f, "w-word {i:x} {v:x}"),
            Line::Put(Part::Hint(s, k, p)) => write!(f, "w-hint {s:x} {k:x} {p:x}"),
            Line::Put(Part::Entry(s, [t, g, b, p])) => write!(f, "w-entry {s:x} {t:x} {g:x} {b:x} {p:x}"),
            Line::Put(Part::Fetch(v, l, p)) => write!(f, "w-fetch {v:x} {l:x} {p:x}"),
            Line::Bytes(piece) => {
                write!(f, "bytes ")?;
                piece.bytes().iter().try_for_each(|b| write!(f, "{b:02x}"))
            }
            Line::Op(op) => write!(f, "{op}"),
        }
    }
}

impl Display for Op {
    fn fmt(&self, f: &mut Formatter) -> fmt::Result {
        use Op::*;
        match *self {
            Translate(k, va) => write!(f, "tr {k:x} {va:x}"),
            DataPa(va) => write!(f, "dpa {va:x}"),
            FetchPa(va) => write!(f, "fpa {va:x}"),
            Load(va, n) => write!(f, "ld {va:x} {n:x}"),
            Store(va, n, v) => write!(f, "st {va:x} {n:x} {v:x}"),
            Fetch(va) => write!(f, "if {va:x}"),
            Sys(a, b, c, d, r) => write!(f, "sys {a:x} {b:x} {c:x} {d:x} {r:x}"),
            Reg(k, v) => write!(f, "reg {k:x} {v:x}"),
            Level(l) => write!(f, "level {l:x}"),
            Mark(m) => write!(f, "mark {:x}", m as u8),
            SetX(r, v) => write!(f, "x {r:x} {v:x}"),
            Abort(e) => write!(f, "abort {}", exception(&e)),
            Census(first, pages) => write!(f, "census {first:x} {pages:x}"),
            Windows => write!(f, "win"),
            Flip(k, user, va) => write!(f, "flip {k:x} {:x} {va:x}", user as u8),
            LeafAsid => write!(f, "l-asid"),
            LeafOn(r) => write!(f, "l-on {r:x}"),
            LeafUntag(r, va) => write!(f, "l-untag {r:x} {va:x}"),
            LeafWalk(r, va) => write!(f, "l-walk {r:x} {va:x}"),
            LeafBits(p) => write!(f, "l-bits {p:x}"),
            LeafPerm(p) => write!(f, "l-perm {p:x}"),
            LeafBank(k) => write!(f, "l-bank {k:x}"),
            LeafVector(a, b, s) => write!(f, "l-vec {a:x} {b:x} {:x}", s as u8),
            LeafSyndrome(e, a, b, pc) => write!(f, "l-syn {a:x} {b:x} {pc:x} {}", exception(&e)),
            PokeLevel(l) => write!(f, "p-level {l:x}"),
            PokePc(v) => write!(f, "p-pc {v:x}"),
            PokeSpsel(v) => write!(f, "p-spsel {:x}", v as u8),
            PokeGeneration(g) => write!(f, "p-gen {g:x}"),
            PokeCounters(v) => write!(f, "p-cnt {v:x}"),
            TakeBroadcast => write!(f, "p-bc"),
        }
    }
}

fn exception(e: &Exception) -> String {
    match *e {
        Exception::Undefined => "und".into(),
        Exception::Svc(i) => format!("svc {i:x}"),
        Exception::Hvc(i) => format!("hvc {i:x}"),
        Exception::Smc(i) => format!("smc {i:x}"),
        Exception::Brk(i) => format!("brk {i:x}"),
        Exception::DataAbort { addr, write, fsc } => format!("data {addr:x} {:x} {fsc:x}", write as u8),
        Exception::InsnAbort { addr, fsc } => format!("insn {addr:x} {fsc:x}"),
        Exception::PcAlignment => "pca".into(),
    }
}

/// The words of one line after its name.
struct Words<'a>(&'a [&'a str]);

impl Words<'_> {
    fn num(&self, i: usize) -> Option<u64> {
        u64::from_str_radix(self.0.get(i)?, 16).ok()
    }

    /// A number that fits `T`.
    fn fit<T: TryFrom<u64>>(&self, i: usize) -> Option<T> {
        T::try_from(self.num(i)?).ok()
    }

    fn flag(&self, i: usize) -> Option<bool> {
        Some(self.num(i)? != 0)
    }

    fn exception(&self, from: usize) -> Option<Exception> {
        let w = Words(self.0.get(from + 1..)?);
        Some(match self.0[from] {
            "und" => Exception::Undefined,
            "svc" => Exception::Svc(w.fit(0)?),
            "hvc" => Exception::Hvc(w.fit(0)?),
            "smc" => Exception::Smc(w.fit(0)?),
            "brk" => Exception::Brk(w.fit(0)?),
            "data" => Exception::DataAbort {
                addr: w.num(0)?,
                write: w.flag(1)?,
                fsc: w.fit(2)?,
            },
            "insn" => Exception::InsnAbort {
                addr: w.num(0)?,
                fsc: w.fit(1)?,
            },
            "pca" => Exception::PcAlignment,
            _ => return None,
        })
    }

    fn around(&self, name: &str) -> Option<Line> {
        Some(match name {
            "fresh" => Line::Fresh,
            "window" => Line::Window(self.num(0)?, self.num(1)?),
            "zero" => Line::Zero,
            "core" => Line::Core(self.num(0)?),
            "poke" => Line::Poke(self.num(0)?, self.num(1)?),
            "w-word" => Line::Put(Part::Word(self.fit(0)?, self.num(1)?)),
            "w-hint" => Line::Put(Part::Hint(self.fit(0)?, self.num(1)?, self.num(2)?)),
            "w-entry" => {
                let record = [self.num(1)?, self.num(2)?, self.num(3)?, self.num(4)?];
                Line::Put(Part::Entry(self.fit(0)?, record))
            }
            "w-fetch" => Line::Put(Part::Fetch(self.num(0)?, self.fit(1)?, self.num(2)?)),
            _ => return None,
        })
    }

    fn operation(&self, name: &str) -> Option<Op> {
        use Op::*;
        Some(match name {
            "tr" => Translate(self.kind(0)?, self.num(1)?),
            "dpa" => DataPa(self.num(0)?),
            "fpa" => FetchPa(self.num(0)?),
            "ld" => Load(self.num(0)?, self.fit(1)?),
            "st" => Store(self.num(0)?, self.fit(1)?, self.num(2)?),
            "if" => Fetch(self.num(0)?),
            "sys" => Sys(
                self.fit(0)?,
                self.fit(1)?,
                self.fit(2)?,
                self.fit(3)?,
                self.fit(4)?,
            ),
            "reg" => Reg(self.fit(0)?, self.num(1)?),
            "level" => Level(self.fit(0)?),
            "mark" => Mark(self.flag(0)?),
            "x" => SetX(self.fit(0)?, self.num(1)?),
            "abort" => Abort(self.exception(0)?),
            "census" => Census(self.num(0)?, self.num(1)?),
            "win" => Windows,
            "flip" => Flip(
                self.kind(0)?,
                self.fit(1).filter(|v: &u8| *v <= 1)? == 1,
                self.num(2)?,
            ),
            "l-asid" => LeafAsid,
            "l-on" => LeafOn(self.regime(0)?),
            "l-untag" => LeafUntag(self.regime(0)?, self.num(1)?),
            "l-walk" => LeafWalk(self.regime(0)?, self.num(1)?),
            "l-bits" => LeafBits(self.num(0)?),
            "l-perm" => LeafPerm(self.fit(0)?),
            "l-bank" => LeafBank(self.fit(0)?),
            "l-vec" => LeafVector(self.fit(0)?, self.fit(1)?, self.flag(2)?),
            "l-syn" => LeafSyndrome(self.exception(3)?, self.fit(0)?, self.fit(1)?, self.num(2)?),
            "p-level" => PokeLevel(self.fit(0)?),
            "p-pc" => PokePc(self.num(0)?),
            "p-spsel" => PokeSpsel(self.flag(0)?),
            "p-gen" => PokeGeneration(self.fit(0)?),
            "p-cnt" => PokeCounters(self.num(0)?),
            "p-bc" => TakeBroadcast,
            _ => return None,
        })
    }

    fn kind(&self, i: usize) -> Option<u8> {
        self.fit(i).filter(|k| [1, 2, 4].contains(k))
    }

    fn regime(&self, i: usize) -> Option<u8> {
        self.fit(i).filter(|r| (1..=3).contains(r))
    }
}

/// The most bytes of a line.
const MOST_BYTES: usize = 1024;

/// One to 1,024 bytes, two digits each.
fn bytes(words: &[&str]) -> Option<Vec<u8>> {
    let digits = words.first()?.as_bytes();
    let digit = |d: u8| char::from(d).to_digit(16);
    let byte = |pair: &[u8]| Some((digit(pair[0])? << 4 | digit(pair[1])?) as u8);
    let whole = digits.len() % 2 == 0 && (1..=MOST_BYTES).contains(&(digits.len() / 2));
    whole.then(|| digits.chunks_exact(2).map(byte).collect())?
}

impl Line {
    /// None for an empty line or a comment; several for more bytes than one holds.
    pub fn parse(text: &str) -> Result<Vec<Line>, String> {
        let bare = text.split('#').next().unwrap_or("");
        let words: Vec<&str> = bare.split_whitespace().collect();
        let Some((name, rest)) = words.split_first() else {
            return Ok(Vec::new());
        };
        let w = Words(rest);
        let lines = match *name {
            "bytes" => bytes(rest).map(|all| Piece::all(&all).map(Line::Bytes).collect()),
            _ => w
                .around(name)
                .or_else(|| w.operation(name).map(Line::Op))
                .map(|line| vec![line]),
        };
        lines.ok_or_else(|| format!("not a line of a trace: {}", bare.trim()))
    }

    /// A whole trace, each line with its number in the file.
    pub fn parse_all(text: &str) -> Result<Vec<(usize, Line)>, String> {
        let mut all = Vec::new();
        for (i, l) in text.lines().enumerate() {
            let lines = Line::parse(l).map_err(|e| format!("line {}: {e}", i + 1))?;
            all.extend(lines.into_iter().map(|line| (i + 1, line)));
        }
        Ok(all)
    }
}
