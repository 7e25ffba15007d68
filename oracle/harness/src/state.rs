//! Everything a core holds, in one fixed order: what is compared after each operation.
use std::fmt::Write;

/// A digest of 64-bit words, made of sums, one xor and one shift:
/// h := 3h + w mod 2^64, then h := h xor (h >> 32), from 0x9E3779B97F4A7C15.
pub struct Hash(pub u64);

impl Hash {
    #[allow(clippy::new_without_default)]
    pub fn new() -> Hash {
        Hash(0x9E37_79B9_7F4A_7C15)
    }

    pub fn word(&mut self, w: u64) {
        self.0 = self.0.wrapping_add(self.0).wrapping_add(self.0).wrapping_add(w);
        self.0 ^= self.0 >> 32;
    }

    pub fn of(words: impl IntoIterator<Item = u64>) -> u64 {
        let mut h = Hash::new();
        words.into_iter().for_each(|w| h.word(w));
        h.0
    }
}

/// An entry of the cache whose tag has not been dropped.
#[derive(Clone, Copy, Debug, PartialEq, Eq)]
pub struct Entry {
    pub slot: u16,
    pub tag: u64,
    pub perms: u8,
    pub level: u8,
    pub global: bool,
    pub asid: u16,
    pub pa: u64,
}

/// What the cache counted at one exception level.
#[derive(Clone, Copy, Debug, Default, PartialEq, Eq)]
pub struct LevelCounters {
    pub hits: u64,
    pub walks: u64,
}

/// The sums over the levels, hits and walks, wrapped at 2^64: what pimu's two counters are matched with.
pub fn totals(levels: &[LevelCounters; 4]) -> (u64, u64) {
    let sum = |of: fn(&LevelCounters) -> u64| levels.iter().map(of).fold(0, u64::wrapping_add);
    (sum(|l| l.hits), sum(|l| l.walks))
}

/// The registers in the order of a state's words.
pub const REGS: [&str; 34] = [
    "SCTLR1", "SCTLR2", "SCTLR3", "TCR1", "TCR2", "TCR3", "TTBR0_1", "TTBR0_2", "TTBR0_3", "TTBR1", "MAIR1",
    "MAIR2", "MAIR3", "VBAR1", "VBAR2", "VBAR3", "ELR1", "ELR2", "ELR3", "SPSR1", "SPSR2", "SPSR3", "ESR1",
    "ESR2", "ESR3", "FAR1", "FAR2", "FAR3", "SCR", "HCR", "VPIDR", "VMPIDR", "PAR", "PC",
];

/// PAR's and PC's places in [`REGS`], which are those of a state's words.
pub use crate::place::{PAR_EL1 as PAR, PC};

#[derive(Clone, Debug, PartialEq, Eq)]
pub struct State {
    /// In the order of [`REGS`].
    pub regs: [u64; 34],
    /// NZCV, DAIF, SPSel: constant on lists.
    pub flags: [u64; 3],
    pub x: [u64; 31],
    pub level: u32,
    pub mark: bool,
    /// By exception level.
    pub levels: [LevelCounters; 4],
    pub flushes: u64,
    pub drops: u64,
    pub epoch: u64,
    /// 0 none, 1 All, 2 Page, 3 Asid; and its value.
    pub broadcast: (u8, u64),
    pub last_pa: u64,
    pub abort_pa: u64,
    pub generation: u32,
    pub cache_asid: u16,
    /// The live entries, those of the present generation, by slot.
    pub entries: Vec<Entry>,
    /// Entries of a later generation, with it: no list makes one, but a wild core may hold some.
    pub ahead: Vec<(u32, Entry)>,
    /// Those set, by slot (reads 0..256, writes 256..512): slot, key (page | level), physical page.
    pub hints: Vec<(u16, u64, u64)>,
    /// Page, level, physical page.
    pub fetch: Option<(u64, u32, u64)>,
}

impl State {
    pub fn reg_digest(&self) -> u64 {
        Hash::of(self.regs.into_iter().chain(self.flags).chain(self.x))
    }

    pub fn entry_digest(&self) -> u64 {
        Hash::of(self.entries.iter().flat_map(|e| {
            let small = [e.perms.into(), e.level.into(), e.global.into(), e.asid.into()];
            [[e.slot.into(), e.tag].as_slice(), &small, &[e.pa]].concat()
        }))
    }

    pub fn hint_digest(&self) -> u64 {
        let data = self.hints.iter().flat_map(|(s, k, p)| [u64::from(*s), *k, *p]);
        Hash::of(data.chain(self.fetch.iter().flat_map(|(v, l, p)| [*v, u64::from(*l), *p])))
    }

    /// Data hints and the fetch hint.
    pub fn hint_count(&self) -> usize {
        self.hints.len() + self.fetch.is_some() as usize
    }

    /// The hits of all levels, wrapped at 2^64.
    pub fn hits(&self) -> u64 {
        totals(&self.levels).0
    }

    /// The walks of all levels, wrapped at 2^64.
    pub fn walks(&self) -> u64 {
        totals(&self.levels).1
    }

    /// What the scope compares, as names and values.
    fn named(&self) -> [(&'static str, String); 18] {
        let x = |v: u64| format!("{v:x}");
        let pair = |l: usize| format!("{:x}:{:x}", self.levels[l].hits, self.levels[l].walks);
        [
            ("h", x(self.hits())),
            ("w", x(self.walks())),
            ("l0", pair(0)),
            ("l1", pair(1)),
            ("l2", pair(2)),
            ("l3", pair(3)),
            ("fl", x(self.flushes)),
            ("dr", x(self.drops)),
            ("ep", x(self.epoch)),
            ("bc", format!("{}:{:x}", self.broadcast.0, self.broadcast.1)),
            ("lp", x(self.last_pa)),
            ("ap", x(self.abort_pa)),
            ("el", self.level.to_string()),
            ("um", (self.mark as u8).to_string()),
            ("as", x(self.cache_asid.into())),
            ("gen", x(self.generation.into())),
            ("par", x(self.regs[PAR])),
            ("pc", x(self.regs[PC])),
        ]
    }

    /// Digests of the rest, as names and values.
    fn digests(&self) -> [(&'static str, String); 3] {
        let (entries, hints) = (self.entries.len(), self.hint_count());
        [
            ("R", format!("{:016x}", self.reg_digest())),
            ("T", format!("{entries}:{:016x}", self.entry_digest())),
            ("H", format!("{hints}:{:016x}", self.hint_digest())),
        ]
    }

    /// One value by its name in [`Self::line`] or [`REGS`].
    pub fn value(&self, name: &str) -> Option<String> {
        let mut all = self.named().into_iter().chain(self.digests());
        let named = all.find(|(n, _)| *n == name).map(|(_, v)| v);
        named.or_else(|| Some(format!("{:x}", self.regs[REGS.iter().position(|r| *r == name)?])))
    }

    /// The state in one line: what the scope compares, then digests of the rest. `ram`: its digest.
    pub fn line(&self, ram: u64) -> String {
        let all = self.named().into_iter().chain(self.digests());
        let s: String = all.map(|(n, v)| format!("{n}={v} ")).collect();
        s + &format!("M={ram:016x}")
    }

    /// All of it, for reading.
    pub fn full(&self) -> String {
        let mut s = String::new();
        for (n, v) in REGS.iter().zip(self.regs) {
            let _ = write!(s, "{n}={v:x} ");
        }
        let _ = writeln!(s, "flags={:x?} x={:x?}", self.flags, self.x);
        for e in &self.entries {
            let _ = writeln!(s, "  entry {e:x?}");
        }
        for e in &self.ahead {
            let _ = writeln!(s, "  ahead {e:x?}");
        }
        let _ = writeln!(s, "  hints {:x?} fetch {:x?}", self.hints, self.fetch);
        s
    }
}
