//! The first bit whose flip changes an answer, over every range, size and granule.
use harness::cli::{finish, verdict, Args};
use harness::flips::Flips;

const USAGE: &str = "flips ROUNDS [--c | --each | --plain | --mistake M]
  In each round 512 chains of tables in small windows, one for each range, size and granule, and of each six flipped
  bits, one for each kind and view, on the Rust and the model (--c: the core behind the C boundary, --each: by its
  functions; --plain: the core as plain Rust; --mistake: the model with that mistake). Of windows up to 4 KiB the Rust
  tries every bit of RAM. Answers, states and RAM are compared. Status 1 where they differ, or nothing was compared.";

fn main() {
    let args = Args::new(USAGE, &["--c", "--each", "--plain"], &["--mistake"]);
    args.expect_words(1);
    let mut other = args.other_core();
    let mut flips = Flips::new(other.as_mut());
    let rounds: u64 = args.number(0);
    let difference = (0..rounds).find_map(|_| flips.round().err());
    for (head, answers) in &flips.seen {
        let parts: Vec<String> = answers.iter().map(|(a, n)| format!("{a}: {n}")).collect();
        println!("{head}: {}", parts.join(", "));
    }
    if let Some(d) = &difference {
        println!("{d}");
    }
    let (n, model) = (flips.flips, flips.tally.by_model());
    let (said, good) = verdict(n, difference.is_none(), ["all equal", "DIFFERENT"]);
    println!("{n} flipped bits, {model} operations by the second model, {said}");
    finish(good)
}
