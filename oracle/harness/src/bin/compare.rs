//! Compare the Rust with another core.
use harness::cli::{finish, verdict, Args};
use harness::cluster::{self, Cluster};
use harness::compare::compare;
use harness::tally::Tally;
use harness::{Core, Line};
use std::sync::atomic::{AtomicBool, AtomicU64, Ordering};
use std::thread;

const USAGE: &str = "compare [--cores] [--c | --each | --plain | --mistake M] TRACE..
       compare [--cores] [--c | --each | --plain | --mistake M] --seeds FROM TO N [--strict | --wild] [--jobs J]
  The Rust beside the model (--c: the core behind the C boundary; --each: the same by its function for each
  operation; --plain: the core as plain Rust; --mistake: the model with that mistake), on traces or on those of the
  seeds FROM to TO - 1 with about N operations each, J seeds at a time. A flat address from 2^44 on is judged by the
  model, an access over two pages of which the first page's abort comes before the second page's fault by the Rust with
  that answer in its place. --cores: four cores over one RAM, on traces of four; of a number above 3 the contract judges.
  Stops at the first operation after which answer, state or RAM differ. Shows how often each
  operation gave each answer. Status 1 where they differ, or no operation was compared.";

/// Lines with their numbers in the trace.
type Numbered = Vec<(usize, Line)>;

/// What stands beside the Rust: one core, or four.
enum Other {
    One(Box<dyn Core>),
    Four(Box<dyn Cluster>),
}

impl Other {
    fn of(args: &Args) -> Other {
        if args.flag("--cores") {
            Other::Four(args.other_cluster())
        } else {
            Other::One(args.other_core())
        }
    }
}

fn one(name: &str, trace: Numbered, other: &mut Other, tally: &mut Tally) -> bool {
    let (numbers, lines): (Vec<usize>, Vec<Line>) = trace.into_iter().unzip();
    let difference = match other {
        Other::One(core) => compare(&lines, core.as_mut(), |step| tally.note(&step)),
        Other::Four(four) => cluster::compare::compare(&lines, four.as_mut(), |step| tally.note(&step)),
    };
    if let Some(d) = &difference {
        println!("{name}: differ at line {}: {}", numbers[d.at], d.report);
    }
    difference.is_none()
}

/// The seeds that are left, one after another, until a difference stops all.
fn some_seeds(args: &Args, next: &AtomicU64, equal: &AtomicBool) -> Tally {
    let (seeds, n) = args.seeds();
    let mut other = Other::of(args);
    let mut tally = Tally::default();
    while equal.load(Ordering::Relaxed) {
        let seed = next.fetch_add(1, Ordering::Relaxed);
        if !seeds.contains(&seed) {
            break;
        }
        let numbered = (1..).zip(args.made(seed, n)).collect();
        if !one(&format!("seed {seed}"), numbered, &mut other, &mut tally) {
            equal.store(false, Ordering::Relaxed);
        }
    }
    tally
}

fn all_seeds(args: &Args) -> (Tally, bool) {
    let (next, equal) = (AtomicU64::new(args.seeds().0.start), AtomicBool::new(true));
    let mut tally = Tally::default();
    thread::scope(|s| {
        let jobs: Vec<_> = (0..args.jobs())
            .map(|_| s.spawn(|| some_seeds(args, &next, &equal)))
            .collect();
        for job in jobs {
            tally.add(&job.join().expect("a job that ends"));
        }
    });
    (tally, equal.into_inner())
}

fn main() {
    let args = Args::new(
        USAGE,
        &[
            "--c", "--each", "--plain", "--cores", "--seeds", "--strict", "--wild",
        ],
        &["--mistake", "--jobs"],
    );
    let (tally, equal) = if args.flag("--seeds") {
        all_seeds(&args)
    } else if args.words().is_empty() {
        args.fail("a trace is missing")
    } else {
        let (mut other, mut tally) = (Other::of(&args), Tally::default());
        let mut one = |file: &String| one(file, args.trace(file), &mut other, &mut tally);
        let equal = args.words().iter().all(&mut one);
        (tally, equal)
    };
    let (said, good) = verdict(tally.operations, equal, ["all equal", "DIFFERENT"]);
    print!("{tally}");
    let (model, order) = (tally.by_model(), tally.by_order());
    let all = tally.operations;
    let contract = match tally.by_contract() {
        0 => String::new(),
        n => format!(" {n} by the contract,"),
    };
    println!(
        "{all} operations, {model} by the second model, {order} by the order of faults,{contract} {said}"
    );
    finish(good)
}
