//! The model as a [`State`], and back.
use super::{Bank, DocCore, Inval, Regs};
use crate::state::{self, State};

/// The register at each place of [`state::REGS`] before PAR and PC.
fn places() -> Vec<(Bank, u32)> {
    let each = |b: Bank| (1..=3).map(move |l| (b, l));
    let mut p: Vec<(Bank, u32)> = [Bank::Sctlr, Bank::Tcr, Bank::Ttbr0]
        .into_iter()
        .flat_map(each)
        .collect();
    p.push((Bank::Ttbr1, 1));
    let banks = [
        Bank::Mair,
        Bank::Vbar,
        Bank::Elr,
        Bank::Spsr,
        Bank::Esr,
        Bank::Far,
    ];
    p.extend(banks.into_iter().flat_map(each));
    p.extend([
        (Bank::Scr, 3),
        (Bank::Hcr, 2),
        (Bank::Vpidr, 2),
        (Bank::Vmpidr, 2),
    ]);
    p
}

fn registers(r: &Regs) -> [u64; 34] {
    let mut regs = [0; 34];
    for (place, at) in regs.iter_mut().zip(places()) {
        *place = r.bank[&at];
    }
    regs[state::PAR] = r.par;
    regs[state::PC] = r.pc;
    regs
}

fn set_registers(r: &mut Regs, regs: &[u64; 34]) {
    for (v, at) in regs.iter().zip(places()) {
        r.bank.insert(at, *v);
    }
    r.par = regs[state::PAR];
    r.pc = regs[state::PC];
}

pub fn of(c: &DocCore) -> State {
    let r = &c.regs;
    let live = c.entries.values().filter(|(g, _)| *g == c.generation);
    let ahead = c.entries.values().filter(|(g, _)| *g > c.generation);
    State {
        regs: registers(r),
        flags: [r.nzcv, r.daif, u64::from(r.spsel)],
        x: r.x,
        level: r.level,
        mark: r.mark,
        levels: c.levels,
        flushes: c.flushes,
        drops: c.drops,
        epoch: c.epoch,
        broadcast: match c.broadcast {
            None => (0, 0),
            Some(Inval::All) => (1, 0),
            Some(Inval::Page(p)) => (2, p),
            Some(Inval::Asid(a)) => (3, a.into()),
        },
        last_pa: c.last_pa,
        abort_pa: c.abort_pa,
        generation: c.generation,
        cache_asid: c.asid,
        entries: live.map(|(_, e)| *e).collect(),
        ahead: ahead.copied().collect(),
        hints: c.hints.iter().map(|(slot, h)| (*slot, h.0, h.1)).collect(),
        fetch: c.fetch,
    }
}

pub fn load(c: &mut DocCore, s: &State) {
    let r = &mut c.regs;
    set_registers(r, &s.regs);
    (r.nzcv, r.daif, r.spsel) = (s.flags[0], s.flags[1], s.flags[2] != 0);
    (r.x, r.level, r.mark) = (s.x, s.level, s.mark);
    c.levels = s.levels;
    (c.flushes, c.drops, c.epoch) = (s.flushes, s.drops, s.epoch);
    c.broadcast = match s.broadcast {
        (0, _) => None,
        (1, _) => Some(Inval::All),
        (2, page) => Some(Inval::Page(page)),
        (_, asid) => Some(Inval::Asid(asid as u16)),
    };
    (c.last_pa, c.abort_pa) = (s.last_pa, s.abort_pa);
    (c.generation, c.asid) = (s.generation, s.cache_asid);
    let live = s.entries.iter().map(|e| (s.generation, *e));
    c.entries = live
        .chain(s.ahead.iter().copied())
        .map(|(g, e)| (e.slot, (g, e)))
        .collect();
    c.hints = s
        .hints
        .iter()
        .map(|(slot, key, pa)| (*slot, (*key, *pa)))
        .collect();
    c.fetch = s.fetch;
}
