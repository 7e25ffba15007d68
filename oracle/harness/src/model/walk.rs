//! Address leaves, the walk, and the translation of the core without a cache.
use super::bits::{bit, bits, WORD};
use super::{Bank, Mistake, Regs};
use crate::Ram;

#[derive(Clone, Copy, PartialEq, Eq, Debug)]
pub struct Leaf {
    pub oa: u64,
    pub perms: u8,
    pub level: u8,
    pub attr: u8,
    pub sh: u8,
    pub ns: bool,
    pub global: bool,
}

/// What TCR, the TTBR and the range say of a walk.
struct Shape {
    upper: bool,
    /// Input and output bits.
    input: u32,
    output: u32,
    granule: u32,
    stride: u32,
    /// EPD.
    closed: bool,
    ttbr: u64,
}

impl Shape {
    fn lsb(&self, level: u32) -> u32 {
        self.granule + self.stride * (3 - level)
    }

    fn in_range(&self, va: u64) -> bool {
        let want = if self.upper { (WORD - 1) >> self.input } else { 0 };
        u128::from(va) >> self.input == want
    }

    fn too_large(&self, address: u64) -> bool {
        address >= 1 << self.output
    }
}

/// What the tables above a leaf took away.
#[derive(Default)]
struct Limits {
    read_only: bool,
    no_fetch: bool,
    no_el0: bool,
    no_privileged_fetch: bool,
}

impl Limits {
    fn narrow(&mut self, regime: u32, table: u64) {
        self.read_only |= bit(table, 62);
        self.no_fetch |= bit(table, 60);
        self.no_el0 |= regime == 1 && bit(table, 61);
        self.no_privileged_fetch |= regime == 1 && bit(table, 59);
    }
}

pub fn output_bits(code: u64) -> u32 {
    [32, 36, 40, 42, 44, 44, 44, 44][code as usize]
}

/// The permission bit that an access of this kind needs.
pub fn needed(kind: u8, user: bool) -> u8 {
    if user {
        kind
    } else {
        kind * 8
    }
}

fn set(read: bool, write: bool, fetch: bool) -> u8 {
    read as u8 + 2 * write as u8 + 4 * fetch as u8
}

impl Regs {
    pub fn on(&self, regime: u32) -> bool {
        let hcr = self.get(Bank::Hcr, 2);
        let off = regime == 1 && bit(self.get(Bank::Scr, 3), 0) && (bit(hcr, 27) || bit(hcr, 12));
        !off && bit(self.get(Bank::Sctlr, regime), 0)
    }

    pub fn untag(&self, regime: u32, va: u64) -> u64 {
        let tcr = self.get(Bank::Tcr, regime);
        let low = va % (1 << 56);
        match (regime, bit(va, 55)) {
            (1, false) if bit(tcr, 37) => low,
            (1, true) if bit(tcr, 38) && self.makes(Mistake::UntagWithoutSign) => low,
            (1, true) if bit(tcr, 38) => low + 0xFF * (1 << 56),
            (2 | 3, _) if bit(tcr, 20) => low,
            _ => va,
        }
    }

    /// With stage 1 off: the address without its tag, or an address size fault of level 0 where a bit from 44 on is set.
    /// The error is the status.
    pub fn flat(&self, regime: u32, va: u64) -> Result<u64, u8> {
        let of = if self.makes(Mistake::FlatUntaggedByEl1) { 1 } else { regime };
        let bare = if self.makes(Mistake::FlatKeepsTag) { va } else { self.untag(of, va) };
        let size = if self.makes(Mistake::FlatAt48Bits) { 48 } else { 44 };
        if bare >> size == 0 {
            Ok(bare)
        } else {
            Err(0x00)
        }
    }

    /// The number of input bits that a TxSZ leaves.
    fn input_bits(&self, size: u64) -> u32 {
        let most = if self.makes(Mistake::SizeClampedAt47) {
            47
        } else {
            39
        };
        64 - size.clamp(16, most) as u32
    }

    fn shape(&self, regime: u32, va: u64) -> Shape {
        let tcr = self.get(Bank::Tcr, regime);
        let upper = regime == 1 && bit(va, 55);
        let size = if upper { bits(tcr, 21, 16) } else { bits(tcr, 5, 0) };
        let big = if upper {
            bits(tcr, 31, 30) == 3
        } else {
            bits(tcr, 15, 14) == 1
        };
        let code = if regime == 1 {
            bits(tcr, 34, 32)
        } else {
            bits(tcr, 18, 16)
        };
        let granule = if big { 16 } else { 12 };
        Shape {
            upper,
            input: self.input_bits(size),
            output: output_bits(code),
            granule,
            stride: granule - 3,
            closed: regime == 1 && bit(tcr, if upper { 23 } else { 7 }),
            ttbr: if upper {
                self.get(Bank::Ttbr1, 1)
            } else {
                self.get(Bank::Ttbr0, regime)
            },
        }
    }

    /// `va` is untagged. The error is the status.
    pub fn walk(&self, ram: &Ram, regime: u32, va: u64) -> Result<Leaf, u8> {
        self.walk_counting(ram, regime, va, &mut 0)
    }

    /// A walk; the descriptors that it reads are added to `reads`, one that lies outside RAM too.
    pub fn walk_counting(&self, ram: &Ram, regime: u32, va: u64, reads: &mut u64) -> Result<Leaf, u8> {
        let (mut asked, mut failed) = (0, 0);
        let walked = self.walk_through(regime, va, |at| {
            let d = ram.get(at, 8);
            asked += 1;
            failed += d.is_none() as u64;
            d
        });
        *reads += asked;
        if self.makes(Mistake::ReadsFailedLeftOut) {
            *reads -= failed;
        }
        *reads += (asked == 0 && self.makes(Mistake::ReadsRefusedOne)) as u64;
        walked
    }

    /// A walk of which each descriptor is what `read` gives of its address, `None` outside RAM.
    pub fn walk_through(
        &self,
        regime: u32,
        va: u64,
        mut read: impl FnMut(u64) -> Option<u64>,
    ) -> Result<Leaf, u8> {
        let s = self.shape(regime, va);
        if !s.in_range(va) || s.closed {
            return Err(0x04);
        }
        // The first table resolves what the levels below leave over.
        let above = s.input - s.granule;
        let levels = above.div_ceil(s.stride);
        let mut width = above - s.stride * (levels - 1);
        let bytes = 8u64 << width;
        let mut table = s.ttbr % (1 << 48) / bytes * bytes;
        if s.too_large(table) {
            return Err(0x00);
        }
        let mut limits = Limits::default();
        for level in 4 - levels..4 {
            let index = (va >> s.lsb(level)) % (1 << width);
            let n = level as u8;
            let d = read(table + 8 * index).ok_or(0x14 + n)?;
            if !bit(d, 0) {
                return Err(0x04 + n);
            }
            if level == 3 || !bit(d, 1) {
                return self.leaf(&s, &limits, regime, va, level, d);
            }
            table = bits(d, 47, s.granule) << s.granule;
            if s.too_large(table) {
                return Err(n);
            }
            limits.narrow(regime, d);
            width = s.stride;
        }
        unreachable!("level 3 has a leaf or a fault")
    }

    fn leaf(&self, s: &Shape, above: &Limits, regime: u32, va: u64, level: u32, d: u64) -> Result<Leaf, u8> {
        let n = level as u8;
        let allowed = match (s.granule, level) {
            (_, 3) => bit(d, 1),
            (12, 1 | 2) | (16, 2) => true,
            (16, 1) => self.makes(Mistake::BigBlockAtLevel1),
            _ => false,
        };
        if !allowed {
            return Err(0x04 + n);
        }
        let lsb = s.lsb(level);
        let oa = (bits(d, 47, lsb) << lsb) + va % (1 << lsb);
        let idle = !bit(d, 10);
        if s.too_large(oa) && !(idle && self.makes(Mistake::FlagBeforeSize)) {
            return Err(n);
        }
        if idle {
            return Err(0x08 + n);
        }
        Ok(Leaf {
            oa,
            perms: self.permissions(above, regime, d),
            level: n,
            attr: bits(d, 4, 2) as u8,
            sh: bits(d, 9, 8) as u8,
            ns: bit(d, 5),
            global: regime != 1 || !bit(d, 11),
        })
    }

    fn permissions(&self, above: &Limits, regime: u32, d: u64) -> u8 {
        let wxn = bit(self.get(Bank::Sctlr, regime), 19);
        let write = !(bit(d, 7) || above.read_only);
        let no_fetch = above.no_fetch || bit(d, 54);
        if regime != 1 {
            return 8 * set(true, write, !(no_fetch || (write && wxn)));
        }
        let el0 = bit(d, 6) && !above.no_el0;
        let user_write = el0 && write;
        let user_fetch = !(no_fetch || (user_write && wxn));
        let judged = if self.makes(Mistake::PrivilegedWxnFromEl0) {
            user_write
        } else {
            write
        };
        let barred = above.no_privileged_fetch || bit(d, 53) || (judged && wxn) || user_write;
        set(el0, user_write, user_fetch) + 8 * set(true, write, !barred)
    }

    /// What a translation of this kind answers by these rights with nothing cached, where each descriptor is what `read`
    /// gives of its address.
    pub fn fresh_answer(
        &self,
        (regime, kind, user): (u32, u8, bool),
        va: u64,
        read: impl FnMut(u64) -> Option<u64>,
    ) -> Result<u64, u8> {
        if !self.on(regime) && !self.makes(Mistake::FlipOffWalks) {
            return self.flat(regime, va);
        }
        let leaf = self.walk_through(regime, self.untag(regime, va), read)?;
        if leaf.perms & needed(kind, user) == 0 {
            return Err(0x0C + leaf.level);
        }
        Ok(leaf.oa / 4096 * 4096 + va % 4096)
    }

    /// Whether an access of this kind is judged by EL0's rights.
    pub fn user(&self, kind: u8) -> bool {
        let marked = self.mark && (kind != 4 || self.makes(Mistake::FetchUnprivileged));
        self.regime() == 1 && (self.level == 0 || marked)
    }

    /// A translation's answer by the core without a cache.
    pub fn translation_without_cache(&self, ram: &Ram, kind: u8, va: u64) -> Result<u64, u8> {
        let what = (self.regime(), kind, self.user(kind));
        self.fresh_answer(what, va, |at| ram.get(at, 8))
    }
}
