//! The choice of what comes next, and the actions that are neither accesses nor writes of registers.
use super::{keys, Generator, Spot, Style};
use crate::op::{Line, Op};
use pimu::aarch64::Exception;

impl Generator {
    pub(super) fn action(&mut self) {
        match self.r.below(1000) {
            0..=479 => self.access(),
            480..=519 => self.drill(),
            520..=589 => {
                let s = self.spot();
                self.tlbi(s);
            }
            590..=639 => self.remap(),
            640..=679 => self.at(),
            680..=719 => self.switch(),
            720..=779 => self.change_level(),
            780..=809 => {
                let m = self.r.percent(40);
                self.op(Op::Mark(m));
            }
            810..=839 => self.toggle(),
            840..=859 => self.any_value(),
            860..=865 => self.any_key(),
            866..=885 => self.abort(),
            886..=905 => self.zero(),
            906..=908 => self.maintenance(),
            909..=915 => self.any_system(),
            916..=929 => self.window(),
            930..=939 => {
                let n = self.r.of(&[0, 1, 30, 31, 31, 32, 0xFFFF_FFFF]);
                let v = self.r.wild();
                self.op(Op::SetX(n, v));
            }
            _ if self.style == Style::Strict => self.access(),
            940..=949 if self.style == Style::Wild => self.wild_cache(4),
            940..=984 => self.leaf_op(),
            pick => self.poke(pick),
        }
    }

    fn change_level(&mut self) {
        if self.r.percent(3) {
            let l = self.r.of(&[4, 5, 0xFFFF_FFFF]);
            self.op(Op::Level(l));
        } else {
            let l = self.r.of(&[0, 0, 0, 1, 1, 1, 2, 3]);
            self.set_level(l);
        }
    }

    /// A page walked, its descriptor changed, something dropped or not, and the page asked for again.
    fn drill(&mut self) {
        let Some(s) = self.spot() else { return };
        let tree = self.trees[s.tree];
        let l = if tree.regime == 1 {
            self.r.of(&[0, 1])
        } else {
            tree.regime
        };
        self.op(Op::Level(l));
        let k = self.r.of(&[1, 1, 2, 4]);
        let inside = (1 << tree.lsb(s.level)) - 1;
        let other = s.va ^ (self.r.word() & inside & !0xFFF);
        self.ask(k, s.va);
        if self.r.percent(60) {
            self.ask(k, other);
        }
        if self.r.percent(70) {
            self.redescribe(s);
        }
        let rt = self.r.below(31) as u32;
        let page = match self.r.below(6) {
            0 => other >> 12,
            1 => (s.va ^ (1 << self.r.below(40).max(12))) >> 12,
            _ => s.va >> 12,
        };
        let asid = self.asid();
        self.op(Op::SetX(rt, page & ((1 << 44) - 1) | asid));
        self.op(Op::Level(3));
        self.drop_something([0, 0, 4, 6][tree.regime as usize], rt, asid);
        self.op(Op::Level(l));
        self.ask(k, s.va);
        self.ask(k, other);
        self.restore_level();
    }

    pub(super) fn ask(&mut self, kind: u8, va: u64) {
        let by_hint = kind == 4 && self.r.percent(50);
        self.op(if by_hint {
            Op::FetchPa(va)
        } else {
            Op::Translate(kind, va)
        });
    }

    /// Another descriptor for the spot, which the scenario may remember.
    pub(super) fn redescribe(&mut self, s: Spot) {
        let oa = self.target(self.trees[s.tree], s.level);
        let mut d = self.leaf(s.level, oa);
        if self.r.percent(30) {
            d = s.desc ^ (1 << self.r.of(&[6, 7, 10, 11, 12, 16, 53, 54]));
        }
        self.lines.push(Line::Poke(s.at, d));
        if self.r.percent(50) {
            self.spots
                .iter_mut()
                .filter(|t| t.at == s.at)
                .for_each(|t| t.desc = d);
        }
    }

    /// Nothing, an ASID, all, another ASID in force, or mostly a page.
    pub(super) fn drop_something(&mut self, op1: u32, rt: u32, asid: u64) {
        match self.r.below(8) {
            0 => {}
            1 => {
                let crm = self.r.of(&[3, 7]);
                self.op(Op::Sys(0, 8, crm, 2, rt));
            }
            2 => {
                let crm = self.crm_of_all();
                self.op(Op::Sys(op1, 8, crm, 0, rt));
            }
            3 => self.other_asid(asid),
            _ => {
                let op2 = if op1 == 0 {
                    self.r.of(&[1, 3, 5, 7])
                } else {
                    self.r.of(&[1, 5])
                };
                let crm = self.r.of(&[3, 7]);
                self.op(Op::Sys(op1, 8, crm, op2, rt));
            }
        }
    }

    /// A descriptor changed as a kernel would, with or without the invalidation that belongs to it.
    fn remap(&mut self) {
        let Some(s) = self.spot() else { return };
        let d = match self.r.below(8) {
            0 => s.desc ^ 1 << 10,
            1 => s.desc ^ 1,
            2 => s.desc ^ 1 << self.r.of(&[5, 6, 7, 8, 11, 53, 54]),
            3 => self.r.wild(),
            4 => s.desc,
            _ => {
                let oa = self.target(self.trees[s.tree], s.level);
                self.leaf(s.level, oa)
            }
        };
        for t in &mut self.spots {
            if t.at == s.at && self.r.percent(50) {
                t.desc = d;
            }
        }
        self.lines.push(Line::Poke(s.at, d));
        if self.r.percent(50) {
            self.tlbi(Some(s));
        }
        if self.r.percent(70) {
            let k = self.r.of(&[1, 2, 4]);
            self.op(Op::Translate(k, s.va));
        }
    }

    fn abort(&mut self) {
        let e = self.exception();
        self.op(Op::Abort(e));
        if self.r.percent(80) {
            let l = self.r.of(&[0, 1, 1, 2, 3]);
            self.set_level(l);
        }
    }

    pub(super) fn exception(&mut self) -> Exception {
        let va = self.address();
        let r = &mut self.r;
        let i = r.word() as u16;
        match r.below(8) {
            0 => Exception::Undefined,
            1 => Exception::Svc(i),
            2 => Exception::Hvc(i),
            3 => Exception::Smc(i),
            4 => Exception::Brk(i),
            5 => Exception::DataAbort {
                addr: va,
                write: r.percent(50),
                fsc: r.of(&[0, 4, 5, 7, 9, 0xD, 0xF, 0x10, 0x15, 0x21, 0x40, 0xFF]),
            },
            6 => Exception::InsnAbort {
                addr: va,
                fsc: r.of(&[0, 4, 5, 7, 9, 0xD, 0xF, 0x10, 0x15, 0xFF]),
            },
            _ => Exception::PcAlignment,
        }
    }

    fn leaf_op(&mut self) {
        let va = self.address();
        let e = self.exception();
        let r = &mut self.r;
        let regime = 1 + r.below(3) as u8;
        let op = match r.below(12) {
            0 => Op::LeafAsid,
            1 => Op::LeafOn(regime),
            2 => Op::LeafUntag(regime, r.word()),
            3 => Op::LeafUntag(regime, va),
            4..=6 => Op::LeafWalk(regime, va),
            7 => Op::LeafBits(r.wild()),
            8 => Op::LeafPerm(r.below(8) as u8),
            9 => Op::LeafBank(if r.percent(50) {
                r.of(&keys::all())
            } else {
                r.word() as u32 & 0x1FFFF
            }),
            10 => Op::LeafVector(r.below(4) as u32, r.below(4) as u32, r.percent(50)),
            _ => Op::LeafSyndrome(e, r.below(4) as u32, 1 + r.below(3) as u32, r.word()),
        };
        self.op(op);
    }

    /// States that no list reaches, or not soon. `pick`: 985 to 999.
    fn poke(&mut self, pick: u64) {
        let r = &mut self.r;
        let op = match pick {
            985..=987 => Op::PokeGeneration(r.of(&[0xFFFF_FFFF, 0xFFFF_FFFE, 1, 2])),
            988..=990 => Op::PokeCounters(r.of(&[u64::MAX, u64::MAX - 1, 0])),
            991..=993 => Op::TakeBroadcast,
            994 | 995 => Op::PokePc(r.wild()),
            996 => Op::PokeSpsel(r.percent(50)),
            _ => return self.high_level(),
        };
        self.op(op);
    }

    /// A present level above 3 for one operation, and now and then for a census.
    fn high_level(&mut self) {
        let l = self.r.of(&[4, 7, 0xFFFF_FFFF]);
        self.op(Op::PokeLevel(l));
        let op = match self.r.below(5) {
            0 => Op::Translate(1, 0),
            1 => Op::Sys(9, 99, 0, 0, 77),
            2 => Op::Reg(1, 1),
            3 => Op::Level(2),
            _ => Op::Load(0, 3),
        };
        self.op(op);
        if self.aside.percent(25) {
            let pages = self.aside.below(2) << 63;
            self.op(Op::Census(u64::MAX, pages));
        }
        self.glimpse_refused();
        self.flip_refused();
        self.op(Op::PokeLevel(self.level));
    }
}
