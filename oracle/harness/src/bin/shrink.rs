//! Shrink a trace on which the Rust and another core differ.
use harness::cli::{finish, Args};
use harness::shrink::shrink;
use harness::{cluster, compare};

const USAGE: &str = "shrink [--cores] [--c | --each | --mistake M] TRACE
  The shortest trace found, on standard output, that still tells the Rust from the model (--c: from the core behind
  the C boundary, --each by its functions; --mistake: from the model with that mistake). Status 1 where TRACE shows no difference.";

fn main() {
    let args = Args::new(USAGE, &["--c", "--each", "--plain", "--cores"], &["--mistake"]);
    args.expect_words(1);
    let lines = args.trace(&args.words()[0]).into_iter().map(|(_, l)| l).collect();
    let short = if args.flag("--cores") {
        let mut four = args.other_cluster();
        shrink(lines, |l| {
            cluster::compare::compare(l, four.as_mut(), |_| {}).map(|d| d.at)
        })
    } else {
        let mut core = args.other_core();
        shrink(lines, |l| {
            compare::compare(l, core.as_mut(), |_| {}).map(|d| d.at)
        })
    };
    let Some(short) = short else {
        eprintln!("no difference");
        finish(false)
    };
    for line in short {
        println!("{line}");
    }
}
