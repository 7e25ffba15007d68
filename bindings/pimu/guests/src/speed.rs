//! Nanoseconds for each instruction: pimu as published without and with its host pointers, and pimu on the proved core,
//! by turns in one process.
use crate::bus::{Bus, DEVICE};
use crate::encode::*;
use crate::scene::*;
use crate::side::{Ended, Side};
use std::time::Instant;

/// Rounds of short turns; the best of each side counts, so that other work on the machine counts little.
const ROUNDS: u64 = 100;

/// A loop: what is in it, and how many instructions a turn has beside the branch.
struct Loop {
    name: &'static str,
    piece: Vec<u32>,
    times: usize,
}

fn loops() -> Vec<Loop> {
    let each = |name, piece: &[u32], times| Loop {
        name,
        piece: piece.to_vec(),
        times,
    };
    vec![
        each("add", &[add_imm(4, 4, 1)], 64),
        each("ldr, by a hint", &[ldr(4, 1, 8)], 64),
        each("str, by a hint", &[str(4, 1, 8)], 64),
        each("ldp", &[pair(true, 2, 4, 5, 1, 2)], 64),
        each(
            "ldrb, two pages by turns",
            &[access(0, 1, 4, 1, 0), access(0, 1, 5, 2, 0)],
            32,
        ),
        each("ldr over two pages", &[access_9(3, 1, 0, 4, 3, 0)], 64),
        each("str over two pages", &[access_9(3, 0, 0, 4, 3, 0)], 64),
        each("ldtr, by an entry", &[ldtr(4, 8)], 64),
        each("sttr, by an entry", &[sttr(4, 8)], 64),
        each(
            "ldr, 512 pages: by entries",
            &[
                ldr(4, 9, 0),
                add_imm(9, 9, 0x800),
                add_imm(9, 9, 0x800),
                of_two(0x8A, 9, 9, 10),
            ],
            16,
        ),
        each("ldxr, stxr", &[ldxr(3, 4, 1), stxr(3, 5, 4, 1)], 32),
        each("call to another page and back", &[blr(7)], 32),
        each("ldr of a device", &[access(2, 1, 4, 11, 0)], 64),
        each("dc zva", &[sys(DC_ZVA, 1)], 16),
        each("tlbi vae1 and ldr", &[sys(TLBI_VAE1, 6), ldr(4, 1, 0)], 16),
        each("tlbi vmalle1 and ldr", &[sys(TLBI_VMALLE1, 31), ldr(4, 1, 0)], 16),
        each("msr ttbr0, the same ASID", &[msr(TTBR0_EL1, 12)], 16),
        each(
            "msr ttbr0, two ASIDs, and ldr",
            &[msr(TTBR0_EL1, 13), ldr(4, 1, 0), msr(TTBR0_EL1, 12), ldr(4, 1, 0)],
            8,
        ),
        each(
            "msr sctlr, on and off",
            &[msr(SCTLR_EL1, 14), msr(SCTLR_EL1, 15)],
            8,
        ),
        each("at s1e1r", &[sys(AT_S1E1R, 1)], 16),
        each("svc and eret", &[call(1, 0)], 32),
        each("an abort and eret", &[ldr(4, 16, 0)], 32),
        each(
            "a mix: loads, stores, sums, a branch",
            &[
                ldr(4, 1, 8),
                add_imm(4, 4, 1),
                str(4, 1, 16),
                add(5, 5, 4),
                access(2, 1, 17, 2, 4),
                cmp(5, 4),
                0x5400_0040, // B.EQ, two words on
                lsr(18, 5, 3),
                access(0, 0, 18, 2, 9),
                pair(true, 2, 19, 20, 1, 2),
            ],
            8,
        ),
    ]
}

/// The scene of all loops: X1 and X2 two pages, X3 the end of one, X8 a page of EL0's, X9 512 pages.
fn scene(l: &Loop) -> (Bus, u64) {
    let mut s = Scene::new();
    // Vectors of EL1 that return.
    for group in [0x200, 0x400] {
        let mut v = Asm::new(VECTORS[1] + group);
        v.put(&returns(1));
        s.code(v);
    }
    let root = s.root();
    for n in 0..8 {
        s.map(
            root,
            0x10_0000 + n * 0x1000,
            (FRAMES + n * 0x1000) | PAGE | if n == 4 { USER } else { 0 },
        );
    }
    s.map(root, 0x10_8000, DEVICE | PAGE);
    for n in 0..512 {
        s.map(root, 0x80_0000 + n * 0x1000, (FRAMES + n % 64 * 0x1000) | PAGE);
    }
    let other = s.map(root, 0x11_0000, (FRAMES + 0x7_0000) | PAGE | READ_ONLY);
    s.bus.poke(other, (FRAMES + 0x7_0000) | PAGE | READ_ONLY);
    s.bus.code(FRAMES + 0x7_0000, &[RET]);
    let mut p = Asm::new(CODE);
    boot(&mut p, root | 1 << 48);
    p.li(1, 0x10_0000)
        .li(2, 0x10_1000)
        .li(3, 0x10_2FFC)
        .li(6, 0x100)
        .li(7, 0x11_0000)
        .li(8, 0x10_4000);
    p.li(9, 0x80_0000)
        .li(10, 0x9F_FFFF)
        .li(11, 0x10_8000)
        .li(12, root | 1 << 48)
        .li(13, root | 2 << 48);
    p.li(14, SCTLR_ON | 1 << 19 | 1 << 2)
        .li(15, SCTLR_ON | 1 << 2)
        .li(16, 0x18_0000);
    // With WXN the code is not executable: another bit that changes shape and nothing else.
    p.li(14, SCTLR_ON | 1 << 12);
    let from = p.here();
    for _ in 0..l.times {
        p.put(&l.piece);
    }
    let back = (from as i64 - p.here() as i64) / 4;
    p.put(&[b(back as i32)]);
    s.code(p);
    (s.bus, CODE)
}

/// Nanoseconds a step over so many steps, and where the core then is.
fn run<S: Side>(core: &mut S, bus: &mut Bus, steps: u64) -> f64 {
    let began = Instant::now();
    for _ in 0..steps {
        if let Ended::Unsupported = core.step(bus) {
            unreachable!("no guest here has stage 2");
        }
    }
    began.elapsed().as_nanos() as f64 / steps as f64
}

/// A core on a bus that keeps no log, booted.
fn booted<S: Side>(l: &Loop, host: bool) -> (S, Bus) {
    let (mut bus, start) = scene(l);
    bus.silent = true;
    if host {
        bus.generations = vec![0; LEN / 4096];
    }
    let mut core = S::with_id(0);
    core.set_pc(start);
    run(&mut core, &mut bus, 2000);
    (core, bus)
}

/// So many steps of one loop on one side (published, proved, host), for a count of instructions.
pub fn turn(side: &str, steps: u64, name: &str) {
    fn of<S: Side>(l: &Loop, host: bool, steps: u64) {
        let (mut core, mut bus) = booted::<S>(l, host);
        run(&mut core, &mut bus, steps);
    }
    for l in loops().iter().filter(|l| l.name == name) {
        match side {
            "proved" => of::<proved::aarch64::Cpu>(l, false, steps),
            _ => of::<pimu::aarch64::Cpu>(l, side == "host", steps),
        }
    }
}

/// The names of the loops.
pub fn names() {
    for l in loops() {
        println!("{}", l.name);
    }
}

/// The table, of the loops with a piece in their names; how many loops end otherwise on one side than on another.
pub fn table(steps: u64, only: &str) -> usize {
    println!(
        "{:38} {:>9} {:>9} {:>9} {:>7} {:>9}",
        "ns for each instruction", "published", "proved", "with host", "ratio", "to host"
    );
    let mut wrong = 0;
    let (mut sum, mut within) = (0.0, 0);
    let all: Vec<Loop> = loops().into_iter().filter(|l| l.name.contains(only)).collect();
    for l in &all {
        let (mut a, mut bus_a) = booted::<pimu::aarch64::Cpu>(l, false);
        let (mut b, mut bus_b) = booted::<proved::aarch64::Cpu>(l, false);
        let (mut h, mut bus_h) = booted::<pimu::aarch64::Cpu>(l, true);
        let mut best = [f64::MAX; 3];
        for _ in 0..ROUNDS {
            best[0] = best[0].min(run(&mut a, &mut bus_a, steps / ROUNDS));
            best[1] = best[1].min(run(&mut b, &mut bus_b, steps / ROUNDS));
            best[2] = best[2].min(run(&mut h, &mut bus_h, steps / ROUNDS));
        }
        wrong +=
            usize::from(a.registers() != b.registers() || bus_a.ram != bus_b.ram || a.counts() != b.counts());
        let ratio = best[1] / best[0];
        sum += ratio.ln();
        within += usize::from(ratio <= 1.05);
        println!(
            "{:38} {:9.2} {:9.2} {:9.2} {ratio:7.2} {:9.2}",
            l.name,
            best[0],
            best[1],
            best[2],
            best[1] / best[2]
        );
    }
    println!(
        "{within} of {} within 1.05 of pimu without host pointers, {:.2} in the mean; {wrong} end otherwise",
        all.len(),
        (sum / all.len() as f64).exp()
    );
    wrong
}
