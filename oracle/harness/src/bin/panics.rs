//! Where a debug build of the Rust would panic, each place once.
use harness::cli::{finish, Args};
use harness::generate::{trace, Style};
use harness::rust::RustCore;
use harness::{feed, Ans, Line, Ram};
use std::collections::BTreeMap;
use std::sync::Mutex;

const USAGE: &str = "panics FROM TO N (built with --profile checked)
  Full traces of the seeds FROM to TO - 1 with about N operations each.";

/// The message of the last panic.
static LAST: Mutex<String> = Mutex::new(String::new());

fn main() {
    let args = Args::new(USAGE, &[], &[]);
    let (seeds, n) = args.seeds();
    if !cfg!(debug_assertions) {
        args.fail("this build checks nothing");
    }
    std::panic::set_hook(Box::new(|info| *LAST.lock().unwrap() = info.to_string()));
    let mut seen: BTreeMap<String, (u64, String)> = BTreeMap::new();
    let mut operations = 0u64;
    for seed in seeds {
        let (mut core, mut ram) = (RustCore::new(), Ram::default());
        for (i, line) in trace(seed, n, Style::Full).iter().enumerate() {
            operations += matches!(line, Line::Op(_)) as u64;
            if feed(line, &mut core, &mut ram) == Some(Ans::Panic) {
                let at = LAST.lock().unwrap().replace('\n', " ");
                seen.entry(at)
                    .or_insert((0, format!("seed {seed} line {}: {line}", i + 1)))
                    .0 += 1;
            }
        }
    }
    for (at, (n, first)) in &seen {
        println!("{n:6} {at}\n       first: {first}");
    }
    println!("{operations} operations, {} places", seen.len());
    finish(operations != 0)
}
