//! Compare the harness's calls with the instructions that pimu itself executes.
use harness::cli::{finish, verdict, Args};
use harness::generate::{trace, Style};
use harness::instructions::{compare, Outcomes};

const USAGE: &str = "instructions FROM TO N
  Strict traces of the seeds FROM to TO - 1 with about N operations each. Status 1 where a system operation differs, or none was
  seen; register writes differ where the scope's rule is not pimu's own.";

fn main() {
    let args = Args::new(USAGE, &[], &[]);
    let (seeds, n) = args.seeds();
    let mut seen = Outcomes::new();
    for seed in seeds {
        compare(&format!("seed {seed}"), &trace(seed, n, Style::Strict), &mut seen);
    }
    for (outcome, (n, first)) in &seen {
        println!("{n:8} {outcome}    first: {first}");
    }
    let system = || seen.iter().filter(|(k, _)| k.starts_with("system operation"));
    let same = system().all(|(k, _)| k.ends_with("same"));
    let number = system().map(|(_, (n, _))| n).sum();
    let (said, good) = verdict(number, same, ["all equal", "DIFFERENT"]);
    println!("system operations {said}");
    finish(good)
}
