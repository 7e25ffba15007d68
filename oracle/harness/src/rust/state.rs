//! pimu's core as a [`State`], and back.
use super::PAR;
use crate::place;
use crate::state::{totals, Entry, LevelCounters, State};
use pimu::aarch64::access::mmu::{self, Record};
use pimu::aarch64::access::{cpu, Inval, Tlb};
use pimu::aarch64::sysreg::SysRegs;
use pimu::aarch64::Cpu;

const EMPTY: Record = Record {
    tag: 0,
    generation: 0,
    perms: 0,
    level: 0,
    global: false,
    asid: 0,
    pa: 0,
};

/// The registers kept once for each of EL1 to EL3, and where they begin in [`crate::state::REGS`].
fn banks(s: &SysRegs) -> [(usize, &[u64; 4]); 9] {
    [
        (place::SCTLR, &s.sctlr),
        (place::TCR, &s.tcr),
        (place::TTBR0, &s.ttbr0),
        (place::MAIR, &s.mair),
        (place::VBAR, &s.vbar),
        (place::ELR, &s.elr),
        (place::SPSR, &s.spsr),
        (place::ESR, &s.esr),
        (place::FAR, &s.far),
    ]
}

fn banks_mut(s: &mut SysRegs) -> [(usize, &mut [u64; 4]); 9] {
    [
        (place::SCTLR, &mut s.sctlr),
        (place::TCR, &mut s.tcr),
        (place::TTBR0, &mut s.ttbr0),
        (place::MAIR, &mut s.mair),
        (place::VBAR, &mut s.vbar),
        (place::ELR, &mut s.elr),
        (place::SPSR, &mut s.spsr),
        (place::ESR, &mut s.esr),
        (place::FAR, &mut s.far),
    ]
}

pub fn registers(c: &Cpu) -> [u64; 34] {
    let s = &c.sys;
    let mut regs = [0; 34];
    for (at, bank) in banks(s) {
        regs[at..at + 3].copy_from_slice(&bank[1..]);
    }
    regs[place::TTBR1_EL1] = s.ttbr1_el1;
    regs[place::SCR_EL3] = s.scr_el3;
    regs[place::HCR_EL2] = s.hcr_el2;
    regs[place::VPIDR_EL2] = s.vpidr_el2;
    regs[place::VMPIDR_EL2] = s.vmpidr_el2;
    regs[place::PAR_EL1] = s.plain.get(&PAR).copied().unwrap_or(0);
    regs[place::PC] = c.pc;
    regs
}

fn set_registers(c: &mut Cpu, regs: &[u64; 34]) {
    let s = &mut c.sys;
    for (at, bank) in banks_mut(s) {
        bank[1..].copy_from_slice(&regs[at..at + 3]);
    }
    s.ttbr1_el1 = regs[place::TTBR1_EL1];
    s.scr_el3 = regs[place::SCR_EL3];
    s.hcr_el2 = regs[place::HCR_EL2];
    s.vpidr_el2 = regs[place::VPIDR_EL2];
    s.vmpidr_el2 = regs[place::VMPIDR_EL2];
    s.plain.insert(PAR, regs[place::PAR_EL1]);
    c.pc = regs[place::PC];
}

fn entry(slot: usize, r: Record) -> Entry {
    Entry {
        slot: slot as u16,
        tag: r.tag,
        perms: r.perms,
        level: r.level,
        global: r.global,
        asid: r.asid,
        pa: r.pa,
    }
}

fn set_entry(t: &mut Tlb, generation: u32, e: &Entry) {
    let r = Record {
        tag: e.tag,
        generation,
        perms: e.perms,
        level: e.level,
        global: e.global,
        asid: e.asid,
        pa: e.pa,
    };
    mmu::set_record(t, e.slot.into(), r);
}

pub fn pending(t: &Tlb) -> (u8, u64) {
    match t.broadcast {
        None => (0, 0),
        Some(Inval::All) => (1, 0),
        Some(Inval::Page(p)) => (2, p),
        Some(Inval::Asid(a)) => (3, a.into()),
    }
}

fn set_pending(t: &mut Tlb, (kind, v): (u8, u64)) {
    t.broadcast = match kind {
        0 => None,
        1 => Some(Inval::All),
        2 => Some(Inval::Page(v)),
        _ => Some(Inval::Asid(v as u16)),
    };
}

/// `levels`: what pimu's two counters counted at each level.
pub fn of(c: &Cpu, levels: &[LevelCounters; 4]) -> State {
    let t = &c.tlb;
    assert_eq!(totals(levels), (t.hits, t.walks));
    debug_assert!(!mmu::host_or_code_used(t));
    let generation = mmu::generation(t);
    let (mut entries, mut ahead) = (Vec::new(), Vec::new());
    for slot in 0..1024 {
        let r = mmu::record(t, slot);
        match r.generation.cmp(&generation) {
            _ if r.tag == 0 => {}
            std::cmp::Ordering::Equal => entries.push(entry(slot, r)),
            std::cmp::Ordering::Greater => ahead.push((r.generation, entry(slot, r))),
            std::cmp::Ordering::Less => {}
        }
    }
    let hints = (0..512).map(|i| (i as u16, mmu::data_hint(t, i)));
    State {
        regs: registers(c),
        flags: [c.nzcv.into(), c.daif.into(), c.spsel.into()],
        x: c.x,
        level: c.el,
        mark: cpu::unprivileged(c),
        levels: *levels,
        flushes: t.flushes,
        drops: t.drops,
        epoch: t.epoch,
        broadcast: pending(t),
        last_pa: cpu::last_pa(c),
        abort_pa: c.abort_pa,
        generation,
        cache_asid: mmu::cache_asid(t),
        entries,
        ahead,
        hints: hints
            .filter(|(_, h)| h.0 != u64::MAX)
            .map(|(i, h)| (i, h.0, h.1))
            .collect(),
        fetch: t.fetch_hint(),
    }
}

pub fn load(c: &mut Cpu, s: &State) {
    set_registers(c, &s.regs);
    c.nzcv = s.flags[0] as u32;
    c.daif = s.flags[1] as u32;
    c.spsel = s.flags[2] != 0;
    c.x = s.x;
    c.el = s.level;
    cpu::set_unprivileged(c, s.mark);
    cpu::set_last_pa(c, s.last_pa);
    c.abort_pa = s.abort_pa;
    let t = &mut c.tlb;
    (t.hits, t.walks) = totals(&s.levels);
    (t.flushes, t.drops, t.epoch) = (s.flushes, s.drops, s.epoch);
    set_pending(t, s.broadcast);
    mmu::set_generation(t, s.generation);
    mmu::set_cache_asid(t, s.cache_asid);
    (0..1024).for_each(|slot| mmu::set_record(t, slot, EMPTY));
    s.entries.iter().for_each(|e| set_entry(t, s.generation, e));
    s.ahead.iter().for_each(|(g, e)| set_entry(t, *g, e));
    (0..512).for_each(|slot| mmu::set_data_hint(t, slot, (u64::MAX, 0)));
    s.hints
        .iter()
        .for_each(|(slot, key, pa)| mmu::set_data_hint(t, (*slot).into(), (*key, *pa)));
    mmu::set_fetch_hint(t, s.fetch);
}

/// As if many flushes had gone by: live entries stay live, and one that is dead already stays so, as it does in
/// every real history, where the wrap clears it.
pub fn move_generation(t: &mut Tlb, to: u32) {
    let present = mmu::generation(t);
    for slot in 0..1024 {
        let r = mmu::record(t, slot);
        let live = r.generation == present;
        mmu::set_record(
            t,
            slot,
            if live {
                Record { generation: to, ..r }
            } else {
                EMPTY
            },
        );
    }
    mmu::set_generation(t, to);
}
