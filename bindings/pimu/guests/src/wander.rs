//! Random guests, run on both sides: how far each seed comes, and what was met.
use crate::copied;
use crate::encode::{msr, sys, AT_S1E1R, TTBR1_EL1};
use crate::pair::Pair;
use crate::random::{any_access, guest};
use crate::retrace;
use crate::rng::Rng;
use crate::side::{Ended, Inval, Side};
use std::collections::BTreeMap;
use std::sync::atomic::{AtomicU64, Ordering};
use std::sync::Mutex;

/// A guest in which so many aborts of fetches follow each other is at an end: its vectors are not mapped.
const LOST: u32 = 12;

/// What a seed gave.
#[derive(Default)]
pub struct Way {
    pub steps: u64,
    pub seen: BTreeMap<String, u64>,
    pub differs: Option<String>,
}

/// One seed, of one core or of two.
pub fn seed<B: Side>(seed: u64, steps: u64) -> Way {
    walked::<B>(seed, steps, None).0
}

/// The same, with what the first core does recorded; and the two sides as they are at the end.
fn walked<B: Side>(seed: u64, steps: u64, record: Option<&str>) -> (Way, Pair<B>) {
    let cores = 1 + (seed % 3 == 2) as usize;
    let (bus, starts) = guest(seed, cores);
    let mut pair: Pair<B> = Pair::new(bus, cores);
    pair.lazy = true;
    for (n, start) in starts.iter().enumerate() {
        pair.start(n, *start);
    }
    if let Some(path) = record {
        pair.b[0].record(path);
    }
    let mut rng = Rng::new(seed ^ 0x5EED);
    let (mut lost, mut turn) = (0, 0);
    let mut way = Way::default();
    // Of some recordings the first operation over RAM is no fetch.
    if record.is_some() && seed.is_multiple_of(4) {
        way.differs = pair.inject(0, sys(AT_S1E1R, 0)).err();
        pair.start(0, starts[0]);
    }
    while way.differs.is_none() && pair.steps < steps && lost < LOST {
        if rng.chance(6) {
            turn = rng.below(cores as u64) as usize;
        }
        if rng.chance(90) {
            let on = rng.chance(2);
            pair.each(turn, |a| a.set_irq(on), |b| b.set_irq(on));
        }
        if rng.chance(500) {
            pair.each(turn, |a| a.flush(), |b| b.flush());
        }
        if rng.chance(200) {
            let base = pair.a[turn].registers().banks[2][rng.below(4) as usize] << 16 >> 16;
            let upper = rng.chance(2);
            pair.each(
                turn,
                |a| a.move_tables(upper, base),
                |b| b.move_tables(upper, base),
            );
        }
        let step = match rng.chance(60) {
            false => pair.step(turn),
            true => unfetched(&mut pair, turn, &mut rng),
        };
        match step {
            Err(differs) => {
                way.differs = Some(differs);
            }
            Ok(Ended::Took((6, ..))) => lost += 1,
            Ok(Ended::Unimplemented(_) | Ended::Unsupported | Ended::Vector) => {
                let over = pair.a[turn].pc().wrapping_add(4);
                pair.start(turn, over);
            }
            Ok(Ended::Interrupt) => pair.each(turn, |a| a.set_irq(false), |b| b.set_irq(false)),
            Ok(_) => lost = 0,
        }
    }
    if way.differs.is_none() {
        way.differs = pair.finish().err();
    }
    way.steps = pair.steps;
    let counts = pair.a.iter().map(Side::counts);
    for c in counts {
        for (what, n) in [
            ("hits", c.hits),
            ("walks", c.walks),
            ("flushes", c.flushes),
            ("drops", c.drops),
        ] {
            *pair.seen.entry(what.into()).or_default() += n;
        }
    }
    way.seen = std::mem::take(&mut pair.seen);
    (way, pair)
}

/// Seeds whose first core is recorded, and each trace carried out again; how many went wrong.
pub fn recorded(from: u64, to: u64, steps: u64, path: &str) -> usize {
    let (mut wrong, mut lines) = (0, 0);
    for n in from..to {
        let (way, mut pair) = walked::<proved::aarch64::Cpu>(n, steps, Some(path));
        let copy = pair.b[0].clone();
        pair.b[0].end_recording();
        let again = match way.differs {
            Some(differs) => Err(differs),
            None => retrace::check(path, &pair.b[0], &pair.bus_b)
                .and_then(|lines| copied::goes_on(&mut pair, copy, 200).map(|()| lines)),
        };
        match again {
            Ok(n) => lines += n,
            Err(e) => {
                wrong += 1;
                println!("seed {n}: {e}");
            }
        }
    }
    println!(
        "{} runs recorded, {lines} lines carried out again, {wrong} end otherwise",
        to - from
    );
    wrong
}

/// A register write, perhaps another core's invalidation, and an access, none of them fetched.
fn unfetched<B: Side>(pair: &mut Pair<B>, turn: usize, rng: &mut Rng) -> Result<Ended, String> {
    let pc = pair.a[turn].pc();
    match pair.inject(turn, msr(TTBR1_EL1, rng.reg()))? {
        Ended::Retired => pair.start(turn, pc),
        other => return Ok(other),
    }
    let registers = pair.a[turn].registers();
    let va = registers.x[0];
    // TLBI by address asks for a page where pages have 4 KiB.
    let pages = registers.banks[1][1] >> 14 & 3 == 0 && registers.banks[1][1] >> 30 & 3 == 2;
    let what = match rng.below(4) {
        0 if pages => Some(Inval::Page(va >> 12)),
        1 => Some(Inval::Asid(1 + rng.below(3) as u16)),
        _ => None,
    };
    if let Some(what) = what {
        pair.each(turn, |a| a.invalidate(what), |b| b.invalidate(what));
    }
    let ended = pair.inject(turn, any_access(rng))?;
    if ended == Ended::Retired {
        pair.start(turn, pc);
    }
    Ok(ended)
}

/// Many seeds, on all processors; how many differed.
pub fn seeds<B: Side>(from: u64, to: u64, steps: u64) -> usize {
    let next = AtomicU64::new(from);
    let all = Mutex::new((0, BTreeMap::<String, u64>::new(), 0usize));
    std::thread::scope(|scope| {
        for _ in 0..std::thread::available_parallelism().map_or(1, |n| n.get()) {
            scope.spawn(|| loop {
                let n = next.fetch_add(1, Ordering::Relaxed);
                if n >= to {
                    break;
                }
                let way = seed::<B>(n, steps);
                let mut all = all.lock().expect("no thread panics");
                all.0 += way.steps;
                for (what, n) in way.seen {
                    *all.1.entry(what).or_default() += n;
                }
                if let Some(differs) = way.differs {
                    all.2 += 1;
                    println!("seed {n}: {differs}");
                }
            });
        }
    });
    let (total, seen, wrong) = all.into_inner().expect("no thread panics");
    for (what, n) in seen {
        println!("{n:12} {what}");
    }
    println!("{} seeds, {total} steps, {wrong} differ", to - from);
    wrong
}
