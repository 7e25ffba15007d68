//! Guests on pimu as published and on pimu on the proved core, side by side.
mod accesses;
mod apart;
mod bus;
mod copied;
mod directed;
mod encode;
mod pair;
mod random;
mod retrace;
mod rng;
mod scene;
mod side;
mod speed;
mod voices;
mod wander;
mod world;

use pair::Pair;
use scene::Guest;
use side::{Ended, Side};

use std::sync::atomic::Ordering;

type Proved = proved::aarch64::Cpu;
type Mistaken = mistaken::aarch64::Cpu;

/// A directed guest to its end; how many steps it took. With a folder what its first core does is recorded there.
fn play<B: Side>(guest: &Guest, record: Option<&str>) -> Result<u64, String> {
    let cores = guest.starts.len();
    let mut pair: Pair<B> = Pair::new(guest.bus.clone(), cores);
    for (n, start) in guest.starts.iter().enumerate() {
        pair.start(n, *start);
    }
    if let Some(path) = record {
        pair.b[0].record(path);
    }
    while pair.a[0].pc() != guest.end {
        if pair.steps > 2_000_000 {
            return Err(format!("does not end: core 0 at {:x}", pair.a[0].pc()));
        }
        // Of two cores the second gets three turns of seven.
        let turn = if cores == 1 || pair.steps * 5 % 7 < 4 {
            0
        } else {
            1
        };
        if pair.step(turn)? == Ended::Vector {
            return Err("a vector instruction".into());
        }
    }
    pair.finish()?;
    pair.b[0].end_recording();
    for (at, value) in &guest.known {
        let found = pair.bus_b.peek(*at);
        if found != *value {
            return Err(format!("known at {at:x}: {value:x}, found {found:x}"));
        }
    }
    Ok(pair.steps)
}

/// The directed guests.
fn guests() -> Vec<Guest> {
    let some = directed::all().into_iter().chain(accesses::all());
    some.chain(voices::all()).collect()
}

/// Every directed guest; how many went wrong.
fn directed<B: Side>() -> usize {
    let mut wrong = 0;
    for guest in guests() {
        match play::<B>(&guest, None) {
            Ok(steps) => println!(
                "{:30} {steps} steps, {} results as known",
                guest.name,
                guest.known.len()
            ),
            Err(e) => {
                wrong += 1;
                println!("{:30} {e}", guest.name);
            }
        }
    }
    wrong
}

/// Records a guest, by a piece of its name, as FOLDER/guest.trace; how many could not be.
fn record(name: &str, path: &str) -> usize {
    let mut wrong = 1;
    for guest in guests()
        .into_iter()
        .filter(|guest| guest.name.contains(name))
        .take(1)
    {
        match play::<Proved>(&guest, Some(path)) {
            Ok(steps) => {
                wrong = 0;
                println!("{path}: {}, {steps} steps", guest.name);
            }
            Err(e) => println!("{}: {e}", guest.name),
        }
    }
    wrong
}

/// Where the loop is recorded whose core is copied.
const COPIED: &str = "target/recorded/copied.trace";

/// Each mistake of mistakes.txt: the first guest that shows it, also where it ends with that step. How many none does.
fn mistakes(seeds: u64) -> usize {
    let list = include_str!("../../mistakes.txt");
    let names: Vec<&str> = list
        .split("\n== ")
        .skip(1)
        .filter_map(|block| block.lines().next()?.rsplit_once(": "))
        .map(|(name, _)| name)
        .collect();
    let guests = guests();
    let mut missed = 0;
    for (n, name) in (1..).zip(&names) {
        mistaken::MISTAKE.store(n, Ordering::Relaxed);
        let played = guests.iter().filter(|g| play::<Mistaken>(g, None).is_err());
        let caught = played.count() + usize::from(copied::by_hints(COPIED).is_err());
        let differs = |seed| {
            let way = wander::seed::<Mistaken>(seed, 4000);
            way.differs.is_some().then_some((seed, way.steps))
        };
        let seed = (1..seeds).find_map(differs);
        // A guest whose last step alone shows it shows it too.
        let last = seed.is_none_or(|(seed, steps)| wander::seed::<Mistaken>(seed, steps).differs.is_some());
        if caught == 0 && seed.is_none() || !last {
            missed += 1;
        }
        let seed = seed.map_or("no seed".into(), |(seed, steps)| {
            format!("seed {seed}, step {steps}")
        });
        let last = if last {
            ""
        } else {
            ", MISSED where that step is the last"
        };
        println!("{n:2} {name}: {caught} directed, {seed}{last}");
    }
    println!("{} of {} mistakes caught", names.len() - missed, names.len());
    missed
}

fn main() {
    // A panic is an answer here.
    std::panic::set_hook(Box::new(|_| ()));
    let words: Vec<String> = std::env::args().skip(1).collect();
    let number = |n: usize, default: u64| words.get(n).map_or(Ok(default), |w| w.parse()).expect("a number");
    let wrong = match words.first().map(String::as_str) {
        Some("directed") => directed::<Proved>(),
        Some("random") => wander::seeds::<Proved>(number(1, 1), number(2, 200), number(3, 4000)),
        Some("record") if words.len() == 3 => record(&words[1], &words[2]),
        Some("recorded") if words.len() == 5 => {
            copied::check(COPIED) + wander::recorded(number(1, 1), number(2, 1), number(3, 1), &words[4])
        }
        Some("speed") => speed::table(number(1, 4_000_000), words.get(2).map_or("", String::as_str)),
        Some("loops") => {
            speed::names();
            0
        }
        Some("turn") if words.len() == 4 => {
            speed::turn(&words[1], number(2, 0), &words[3]);
            0
        }
        Some("mistakes") => mistakes(number(1, 400)),
        _ => {
            eprintln!("usage: guests directed | random FROM TO STEPS | mistakes SEEDS | record NAME TRACE | recorded FROM TO STEPS TRACE | speed STEPS LOOP | loops | turn SIDE STEPS LOOP");
            std::process::exit(2);
        }
    };
    std::process::exit(i32::from(wrong != 0));
}
