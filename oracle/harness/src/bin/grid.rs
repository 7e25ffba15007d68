//! Walk with every range, size, granule code and output size.
use harness::cli::{finish, verdict, Args};
use harness::grid::{Ask, Grid};
use harness::Op;

const USAGE: &str = "grid ROUNDS [--c | --each | --walk | --mistake M] [--list]
  In each round 8,192 walks, one for each combination, on the Rust and the model (--c: the core behind the C boundary,
  --each by its functions; --walk: the walk behind `a72_walk`, feature `walk`; --mistake: the model with that mistake).
  --list: by the list alone (translation, AT, censuses of the page and of the range's end, states compared); --c and
  --each want it.";

#[cfg(feature = "walk")]
fn other_core(args: &Args) -> Box<dyn harness::Core> {
    if args.flag("--walk") {
        Box::new(harness::walk::WalkCore::default())
    } else {
        args.other_core()
    }
}

#[cfg(not(feature = "walk"))]
fn other_core(args: &Args) -> Box<dyn harness::Core> {
    if args.flag("--walk") {
        args.fail("--walk wants the feature `walk`")
    }
    args.other_core()
}

fn main() {
    let args = Args::new(USAGE, &["--c", "--each", "--walk", "--list"], &["--mistake"]);
    args.expect_words(1);
    let mut other = other_core(&args);
    let ask = if args.flag("--list") { Ask::List } else { Ask::Leaf };
    if ask == Ask::Leaf && !other.has(&Op::LeafWalk(1, 0)) {
        args.fail("the core has no leaves: --list asks for walks by the list");
    }
    let mut grid = Grid::new(other.as_mut(), ask);
    let rounds: u64 = args.number(0);
    let difference = (0..rounds).find_map(|_| grid.round().err());
    for (head, answers) in &grid.seen {
        let parts: Vec<String> = answers.iter().map(|(a, n)| format!("{a}: {n}")).collect();
        println!("{head}: {}", parts.join(", "));
    }
    if let Some(d) = &difference {
        println!("{d}");
    }
    let (said, good) = verdict(grid.walks, difference.is_none(), ["all equal", "DIFFERENT"]);
    println!("{} walks, {said}", grid.walks);
    finish(good)
}
