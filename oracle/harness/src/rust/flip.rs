//! The first bit of RAM whose flip changes an answer: bits of the bytes themselves are flipped around pimu's own walk and
//! permission bit. The order of descriptors is the second model's; what pimu's walk reads is held to it.
use super::RustCore;
use crate::model::DocCore;
use crate::op::Ans;
use crate::{Core, Ram};
use pimu::aarch64::access::mmu;
use pimu::aarch64::{Abort, Cpu, Memory};

/// The status of a permission fault, but for its level.
const PERMISSION: u8 = 0x0C;
/// Up to so many bytes every bit of RAM is tried.
const SMALL: usize = 0x1000;

/// Memory of which a bit can be flipped.
pub trait Flips: Memory {
    /// Bit `bit` of the byte at this address, where it is inside: whether it is.
    fn flip(&mut self, at: u64, bit: u8) -> bool;
}

impl Flips for Ram {
    fn flip(&mut self, at: u64, bit: u8) -> bool {
        let byte = at
            .checked_sub(self.base)
            .and_then(|i| self.bytes.get_mut(i as usize));
        byte.map(|b| *b ^= 1 << bit).is_some()
    }
}

/// A translation that is asked for with nothing cached: the regime, the permission bit that it needs, the address.
#[derive(Clone, Copy)]
pub struct Question {
    pub regime: u8,
    need: u8,
    va: u64,
}

impl Question {
    /// Of the present level's regime; EL0's rights count in EL1&0 alone.
    #[inline(always)]
    pub fn new(c: &Cpu, kind: u8, user: bool, va: u64) -> Question {
        let regime = c.el.max(1) as u8;
        let need = if user && regime == 1 { kind } else { kind << 3 };
        Question { regime, need, va }
    }

    /// An address or a status, with stage 1 on.
    #[inline(always)]
    pub fn answer<M: Memory + ?Sized>(&self, c: &Cpu, m: &mut M) -> Result<u64, u8> {
        let leaf = mmu::walk_leaf(c, m, self.regime, mmu::untagged(c, self.regime, self.va))?;
        if leaf.perms & self.need == 0 {
            return Err(PERMISSION | leaf.level);
        }
        Ok(leaf.oa & !0xFFF | self.va & 0xFFF)
    }
}

/// The addresses of the descriptors that a walk reads, in order: at most four.
#[derive(Default)]
pub struct Fetched {
    at: [u64; 4],
    count: usize,
}

impl Fetched {
    #[inline(always)]
    pub fn all(&self) -> &[u64] {
        &self.at[..self.count]
    }
}

/// Memory whose reads are noted.
struct Noting<'a, M: ?Sized> {
    memory: &'a mut M,
    fetched: Fetched,
}

impl<M: Memory + ?Sized> Memory for Noting<'_, M> {
    #[inline(always)]
    fn read(&mut self, addr: u64, size: u32) -> Result<u64, Abort> {
        self.fetched.at[self.fetched.count] = addr;
        self.fetched.count += 1;
        self.memory.read(addr, size)
    }

    fn write(&mut self, addr: u64, _: u32, _: u64) -> Result<(), Abort> {
        Err(Abort { addr, write: true })
    }
}

impl Fetched {
    /// Those of a question's walk, and its answer.
    #[inline(always)]
    pub fn of<M: Memory + ?Sized>(q: Question, c: &Cpu, m: &mut M) -> (Fetched, Result<u64, u8>) {
        let mut noting = Noting {
            memory: m,
            fetched: Fetched::default(),
        };
        let answer = q.answer(c, &mut noting);
        (noting.fetched, answer)
    }
}

/// The lowest bit of the descriptor at `at` whose flip changes the answer. One that is not wholly inside has none.
#[inline(always)]
fn first_bit<M: Flips + ?Sized>(
    q: Question,
    c: &Cpu,
    m: &mut M,
    at: u64,
    answer: Result<u64, u8>,
) -> Option<u8> {
    m.read(at, 8).ok()?;
    (0..64).find(|bit| {
        let byte = at + u64::from(bit / 8);
        m.flip(byte, bit % 8);
        let other = q.answer(c, m);
        m.flip(byte, bit % 8);
        other != answer
    })
}

/// The first of the descriptors that has such a bit.
#[inline(always)]
pub fn first_flip<M: Flips + ?Sized>(
    q: Question,
    c: &Cpu,
    m: &mut M,
    descriptors: &[u64],
    answer: Result<u64, u8>,
) -> Option<(u64, u8)> {
    let mut found = descriptors
        .iter()
        .filter_map(|&at| Some((at, first_bit(q, c, m, at, answer)?)));
    found.next()
}

/// Every bit of RAM is tried: those that change the answer lie in descriptors that are wholly inside, and where no
/// descriptor has one there is none.
fn every_bit(
    q: Question,
    c: &Cpu,
    ram: &mut Ram,
    descriptors: &[u64],
    answer: Result<u64, u8>,
    found: Option<(u64, u8)>,
) {
    let mut changed = Vec::new();
    for n in 0..8 * ram.bytes.len() as u64 {
        let (at, bit) = (ram.base.wrapping_add(n / 8), (n % 8) as u8);
        assert!(ram.flip(at, bit));
        if q.answer(c, ram) != answer {
            changed.push((at, bit));
        }
        assert!(ram.flip(at, bit));
    }
    assert_eq!(found.is_none(), changed.is_empty(), "{found:x?} {changed:x?}");
    // By place in the order of descriptors, then by bit.
    let place = |(at, bit): (u64, u8)| {
        let d = descriptors.iter().position(|d| at.wrapping_sub(*d) < 8)?;
        let whole = ram.get(descriptors[d], 8).is_some();
        whole.then(|| (d, 8 * (at - descriptors[d]) as u8 + bit))
    };
    let places: Option<Vec<(usize, u8)>> = changed.iter().map(|n| place(*n)).collect();
    let first = places.expect("in descriptors").into_iter().min();
    assert_eq!(found, first.map(|(d, bit)| (descriptors[d], bit)));
}

impl RustCore {
    /// The descriptors of the walk in the second model's order.
    fn descriptors(&self, q: Question, va: u64, ram: &Ram) -> Vec<u64> {
        let (mut model, mut all) = (DocCore::new(), Vec::new());
        model.load(&self.state());
        let (regs, regime) = (&model.regs, q.regime.into());
        let _ = regs.walk_through(regime, regs.untag(regime, va), |at| {
            all.push(at);
            ram.get(at, 8)
        });
        all
    }

    /// Neither core nor RAM moves.
    pub(super) fn flip(&self, kind: u8, user: bool, va: u64, ram: &mut Ram) -> Ans {
        if !self.stage1_on() {
            return Ans::None;
        }
        let before = (self.state(), ram.writes);
        let q = Question::new(&self.cpu, kind, user, va);
        let (fetched, answer) = Fetched::of(q, &self.cpu, ram);
        let descriptors = self.descriptors(q, va, ram);
        assert_eq!(fetched.all(), descriptors, "what pimu reads and the second model");
        let found = first_flip(q, &self.cpu, ram, &descriptors, answer);
        if ram.bytes.len() <= SMALL {
            every_bit(q, &self.cpu, ram, &descriptors, answer, found);
        }
        assert!(before == (self.state(), ram.writes));
        found.map_or(Ans::None, |(at, bit)| Ans::Bit(at, bit))
    }
}
