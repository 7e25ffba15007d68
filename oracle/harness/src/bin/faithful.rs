//! Test faithfulness on lists made from seeds.
use harness::cli::{finish, verdict, Args};
use harness::cluster::{Cluster, Four};
use harness::domain::Reference;
use harness::faithful::{hold, hold_cores, Seen};
use harness::generate::{trace, trace_of_cores, Style};
use harness::rust::{Rule, RustCore};
use harness::Core;

const USAGE: &str = "faithful FROM TO N [--cores] [--c | --each | --mistake M | --rule pimu|noflush|noretag] [--stale]
  Strict traces of the seeds FROM to TO - 1 with about N operations each, on the Rust in its domain (--c: on the core behind the C
  boundary, --each by its functions; --mistake: on the model with that mistake; --rule: on the Rust with another rule
  of a register write; --cores: of four cores over one RAM). With --stale a line for each answer that is stale and excused: its line in the list, and its address.
  Status 1 where it is broken, or no translation was answered by the cache.";

fn core(args: &Args) -> Box<dyn Core> {
    if ["--c", "--each", "--plain"].iter().any(|name| args.flag(name)) || args.value("--mistake").is_some() {
        return args.other_core();
    }
    let rule = match args.value("--rule") {
        None => Rule::Document,
        Some("pimu") => Rule::Pimu,
        Some("noflush") => Rule::NoFlush,
        Some("noretag") => Rule::NoRetag,
        Some(other) => args.fail(&format!("no such rule: {other}")),
    };
    Box::new(Reference {
        rust: RustCore::with_rule(rule),
        ..Reference::default()
    })
}

/// One core, or four.
enum Tested {
    One(Box<dyn Core>),
    Four(Box<dyn Cluster>),
}

impl Tested {
    fn of(args: &Args) -> Tested {
        let other = ["--c", "--each", "--plain"].iter().any(|name| args.flag(name))
            || args.value("--mistake").is_some();
        match (args.flag("--cores"), other) {
            (false, _) => Tested::One(core(args)),
            (true, _) if args.value("--rule").is_some() => args.fail("--cores has no --rule"),
            (true, false) => Tested::Four(Box::new(Four::<Reference>::default())),
            (true, true) => Tested::Four(args.other_cluster()),
        }
    }

    /// A seed's list.
    fn hold(&mut self, seed: u64, n: usize, seen: &mut Seen) -> Result<(), String> {
        match self {
            Tested::One(core) => hold(&trace(seed, n, Style::Strict), core.as_mut(), seen),
            Tested::Four(four) => hold_cores(&trace_of_cores(seed, n, Style::Strict), four.as_mut(), seen),
        }
    }
}

fn main() {
    let args = Args::new(
        USAGE,
        &["--c", "--each", "--plain", "--cores", "--stale"],
        &["--mistake", "--rule"],
    );
    let (seeds, n) = args.seeds();
    let mut tested = Tested::of(&args);
    let mut seen = Seen::default();
    let mut held = true;
    for seed in seeds {
        if let Err(e) = tested.hold(seed, n, &mut seen) {
            println!("seed {seed}: {e}");
            held = false;
            break;
        }
    }
    if args.flag("--stale") {
        for (line, va) in &seen.stale {
            println!("stale {line} {va:016x}");
        }
    }
    // A list on which the cache answered nothing shows nothing of it.
    let (said, good) = verdict(
        seen.cached,
        held,
        ["as without a cache", "NOT AS WITHOUT A CACHE"],
    );
    let heard = match seen.heard {
        0 => String::new(),
        n => format!(" heard of other cores {n};"),
    };
    println!(
        "translations {} (flat {}, walked {}, from the cache {}); stale but excused {}; excused and yet equal {}; \
         censuses {}; lists of windows {}; flipped bits {};{heard} {said}",
        seen.translations,
        seen.flat,
        seen.walked,
        seen.cached,
        seen.stale_excused,
        seen.equal_though_excused,
        seen.censuses,
        seen.lists,
        seen.flips,
    );
    finish(good)
}
