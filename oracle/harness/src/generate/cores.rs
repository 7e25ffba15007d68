//! Traces of four cores: tables that they share, registers of each, and operations on one after another, so that what one
//! hands on finds something to drop in the others.
use super::keys::{HCR, SCR, SCTLR, TCR};
use super::tables::{Spot, Tree};
use super::{Generator, Style};
use crate::cluster::CORES;
use crate::op::{Line, Op};
use crate::place::{PENDING, PENDING_VALUE};
use crate::wild::Part;
use std::collections::BTreeMap;

/// What belongs to one core of a scenario.
#[derive(Clone, Default)]
struct Own {
    regs: BTreeMap<u32, u64>,
    level: u32,
    trees: Vec<Tree>,
    spots: Vec<Spot>,
    ps: [u64; 4],
    tcr: [u64; 4],
}

/// The cores, and the place of the one that operations go to.
#[derive(Default)]
pub struct Cores {
    at: usize,
    own: [Own; CORES],
}

/// A trace of four cores with about `n` operations; those that name no core are not counted, nor what [`super::trace`] does not count.
pub fn trace_of_cores(seed: u64, n: usize, style: Style) -> Vec<Line> {
    let mut g = Generator::new(seed, style);
    g.cores = Some(Cores::default());
    g.lines.push(Line::Core(0));
    let mut ops = 0;
    while ops < n {
        g.scenario_of_cores();
        let until = ops + (400 + g.r.below(600) as usize).min(n - ops);
        while ops < until {
            let before = g.lines.len();
            g.action_of_cores();
            let counts = |l: &&Line| matches!(l, Line::Op(op) if !op.looks());
            ops += g.lines[before..].iter().filter(counts).count();
            g.cross();
            g.no_core();
            g.pending();
        }
    }
    g.flat_edge(seed);
    g.voices(seed);
    g.flips(seed);
    g.lines
}

impl Generator {
    fn cores(&mut self) -> &mut Cores {
        self.cores.as_mut().expect("four cores")
    }

    fn own(&self) -> Own {
        Own {
            regs: self.regs.clone(),
            level: self.level,
            trees: self.trees.clone(),
            spots: self.spots.clone(),
            ps: self.ps,
            tcr: [0; 4],
        }
    }

    fn become_own(&mut self, own: Own) {
        (self.regs, self.level) = (own.regs, own.level);
        (self.trees, self.spots, self.ps) = (own.trees, own.spots, own.ps);
    }

    /// Operations go to this core from now on.
    fn turn_to(&mut self, core: usize) {
        let own = self.own();
        let cores = self.cores();
        cores.own[cores.at] = own;
        cores.at = core;
        let other = std::mem::take(&mut cores.own[core]);
        self.become_own(other);
        self.lines.push(Line::Core(core as u64));
    }

    fn another(&mut self) -> usize {
        let at = self.cores().at;
        (at + 1 + self.r.below(3) as usize) % CORES
    }

    /// The CRm of a TLBI: with four cores half of them are Inner Shareable.
    pub(super) fn crm(&mut self, alone: &[u32]) -> u32 {
        match self.cores {
            Some(_) => self.r.of(&[3, 3, 3, 3, 3, 7, 7, 7, 0, 1]),
            None => self.r.of(alone),
        }
    }

    /// CRm 7, and with four cores 3 as often.
    pub(super) fn crm_of_all(&mut self) -> u32 {
        match self.cores {
            Some(_) => self.r.of(&[3, 7]),
            None => 7,
        }
    }

    /// Tables of the range sizes and granules that these registers have.
    fn tables(&mut self, big: bool) -> Own {
        let tcr = [0, self.tcr(1, big), self.tcr(2, big), self.tcr(3, big)];
        self.plant_trees(&tcr);
        self.map_pages();
        Own { tcr, ..self.own() }
    }

    /// Tables of other sizes and granules, in which some of the same pages are mapped.
    fn other_tables(&mut self, big: bool, first: &Own) -> Own {
        self.trees.clear();
        self.spots.clear();
        let tcr = [0, self.tcr(1, big), self.tcr(2, big), self.tcr(3, big)];
        self.plant_trees(&tcr);
        for s in &first.spots {
            let upper = s.va >> 63 != 0;
            let tree = if upper { 2 } else { s.tree.min(4) };
            let t = self.trees[tree];
            let inside = s.va & ((1 << t.input) - 1);
            let fits = if upper {
                !s.va | inside == !0 >> (64 - t.input)
            } else {
                s.va == inside
            };
            if tree == s.tree && (fits || upper) {
                self.map_page(tree, s.va, 3, false);
            }
        }
        self.map_pages();
        Own { tcr, ..self.own() }
    }

    fn scenario_of_cores(&mut self) {
        let big = self.lay_window();
        let first = self.tables(big);
        let second = if self.r.percent(60) {
            self.other_tables(big, &first)
        } else {
            first.clone()
        };
        self.wrap = self.r.percent(30);
        self.lines
            .extend([Line::Fresh, Line::Window(self.base, self.len), Line::Zero]);
        self.write_tables();
        self.scatter();
        let mut before: Option<BTreeMap<u32, u64>> = None;
        for core in 0..CORES {
            let other = core > 0 && self.r.percent(30);
            let own = if other { &second } else { &first };
            self.cores().own[core] = own.clone();
            let tcr = own.tcr;
            self.turn_afresh(core);
            match &before {
                // The same ASIDs and settings.
                Some(regs) if !other && self.r.percent(60) => self.settings_of(regs),
                _ => self.choose_registers(&tcr),
            }
            if !other {
                before = Some(self.regs.clone());
            }
            self.repair();
            if self.style == Style::Wild {
                self.wild_core();
            }
            let l = self.r.of(&[0, 0, 1, 1, 1, 2, 3]);
            self.set_level(l);
            self.keep_own();
        }
    }

    /// The same settings as another core's; now and then another size of ASIDs.
    fn settings_of(&mut self, regs: &BTreeMap<u32, u64>) {
        self.regs = regs.clone();
        if self.r.percent(40) {
            let tcr = self.regs[&TCR[1]] ^ 1 << 36;
            self.regs.insert(TCR[1], tcr);
        }
    }

    /// The same, of a core that has done nothing yet.
    fn turn_afresh(&mut self, core: usize) {
        let cores = self.cores();
        cores.at = core;
        let own = cores.own[core].clone();
        self.become_own(own);
        self.lines.push(Line::Core(core as u64));
    }

    fn keep_own(&mut self) {
        let own = self.own();
        let cores = self.cores();
        cores.own[cores.at] = own;
    }

    /// What comes next, often on another core; after something was handed on a core that heard it.
    fn action_of_cores(&mut self) {
        let before = self.lines.len();
        match self.r.below(100) {
            0..=6 => self.drill_over_cores(),
            _ => self.action(),
        }
        let told = |l: &Line| matches!(l, Line::Op(Op::Sys(0 | 4 | 6, 8, 3, ..)));
        let told = self.lines[before..].iter().any(told);
        self.keep_own();
        if told && self.r.percent(70) || self.r.percent(25) {
            let other = self.another();
            self.turn_to(other);
            if told {
                self.access();
            }
        }
    }

    /// A page walked on one core, its descriptor changed, another core's TLBI or none, and the page asked for again.
    fn drill_over_cores(&mut self) {
        let Some(s) = self.spot() else { return };
        let tree = self.trees[s.tree];
        let regime = tree.regime;
        let l = if regime == 1 { self.r.of(&[0, 1]) } else { regime };
        let (here, there) = (self.cores().at, self.another());
        let inside = (1 << tree.lsb(s.level)) - 1;
        let other = s.va ^ (self.r.word() & (inside | 0xFFFF) & !0xFFF);
        let k = self.r.of(&[1, 1, 2, 4]);
        self.op(Op::Level(l));
        self.ask(k, s.va);
        self.ask(k, other);
        if self.r.percent(70) {
            self.redescribe(s);
        }
        self.turn_to(there);
        let rt = self.r.below(31) as u32;
        let page = if self.r.percent(60) { s.va } else { other } >> 12;
        let asid = self.asid();
        self.op(Op::SetX(rt, page & ((1 << 44) - 1) | asid));
        self.op(Op::Level(3));
        let op1 = [0, 0, 4, 6][regime as usize];
        match self.r.below(5) {
            0 => {
                // An ASID of which a core with small ones might take the low half.
                let asid = self.r.of(&[0x101 << 48, 0x102 << 48, asid]);
                self.op(Op::SetX(rt, asid));
                self.op(Op::Sys(0, 8, 3, 2, rt));
            }
            _ => self.drop_something(op1, rt, asid),
        }
        self.restore_level();
        self.turn_to(here);
        self.ask(k, s.va);
        self.ask(k, other);
        self.restore_level();
    }

    /// Now and then operations of a core that there is not, each of which would miss another check too, or none.
    fn no_core(&mut self) {
        if !self.r.percent(2) {
            return;
        }
        let at = self.cores().at;
        let n = self.r.of(&[
            4,
            4,
            5,
            7,
            8,
            0xFF,
            0x100,
            1 << 32,
            3 | 1 << 32,
            1 << 63,
            u64::MAX,
        ]);
        self.lines.push(Line::Core(n));
        let window = self.r.percent(30);
        if window {
            self.lines.push(Line::Window(u64::MAX - 8, self.len));
        }
        let va = self.address();
        for _ in 0..1 + self.r.below(3) {
            let rt = self.r.of(&[0, 31, 32]);
            let op = match self.r.below(18) {
                0 => Op::Level(self.r.of(&[0, 3, 4, 0xFFFF_FFFF])),
                1 => Op::Translate(self.r.of(&[1, 2, 4]), va),
                2 => Op::Load(va, self.r.of(&[8, 3])),
                3 => Op::Store(va, self.r.of(&[8, 0]), va),
                4 => Op::Fetch(va),
                5 => Op::DataPa(va),
                6 => Op::FetchPa(va),
                7 => Op::Sys(self.r.of(&[0, 8]), 8, 3, 1, rt),
                8 => Op::Sys(0, 8, 3, 0, 31),
                9 => Op::Sys(3, 7, 4, 1, rt),
                10 => Op::Sys(0, 7, 8, 0, rt),
                11 => Op::Reg(self.r.of(&[SCTLR[1], HCR, SCR, 1]), va),
                12 => Op::Mark(self.r.percent(50)),
                13 => Op::SetX(rt, va),
                14 => Op::Abort(self.exception()),
                15 => Op::Census(va, self.r.of(&[1, u64::MAX])),
                16 => Op::Windows,
                _ => Op::Flip(1, false, va),
            };
            self.op(op);
        }
        if window {
            self.lines.push(Line::Window(self.base, self.len));
        }
        self.lines.push(Line::Core(at as u64));
    }

    /// Now and then, in wild traces, something is pending before an operation, which is refused or not.
    fn pending(&mut self) {
        if self.style != Style::Wild || !self.r.percent(3) {
            return;
        }
        let level = self.r.of(&[0, 1, 1, 2, 3]);
        let va = self.address();
        self.op(Op::Level(level));
        let (kind, page) = (1 + self.r.below(3), self.r.of(&[va >> 12, 1, 0x101]));
        self.lines.push(Line::Put(Part::Word(PENDING as u16, kind)));
        self.lines.push(Line::Put(Part::Word(PENDING_VALUE as u16, page)));
        let list = self.windows_here();
        let op = match self.r.below(16) {
            0 => Op::Load(va, 3),
            1 => Op::Level(4),
            2 => Op::Sys(9, 99, 0, 0, 77),
            3 => Op::Reg(1, 1),
            4 => Op::SetX(32, 0),
            5 => Op::Census(u64::MAX, u64::MAX),
            // Undefined at EL0, Unimplemented above.
            6 => Op::Sys(5, 8, 3, 1, 0),
            7 => Op::Sys(0, 2, 0, 0, 31),
            // Faults, mostly.
            8 => Op::Translate(1, 1 << 47 | va),
            9 => Op::Load(1 << 47 | va, 8),
            10 => Op::Fetch(1 << 47 | va),
            11 => Op::Census(va, 2),
            12 => Op::Flip(1, false, va),
            13 => Op::Mark(false),
            14 => Op::Sys(0, 8, 7, 1, 0),
            _ => {
                self.ask_windows(list);
                return self.restore_level();
            }
        };
        self.op(op);
        self.restore_level();
    }
}
