//! Time pimu's Rust and the library side by side.
use harness::bench::{cases, time, Case, Pair, Side, Times};
use harness::cli::{finish, Args};
use std::collections::BTreeMap;

const USAGE: &str = "bench time [RUNS] [--plain] [--only TEXT] [--counts FILE]
       bench list
       bench one CASE rust|checked|ours|plain N
  time: a table of all cases (--only: of those whose name holds TEXT): nanoseconds a call, of a census a page, on the
  Rust and on the library, the least of RUNS runs (600), the ratio and its bar, then the Rust with the
  checks behind the library's signatures and the ratio to that; --counts: with the instructions a call that
  `ir.sh` wrote; --plain: the core as plain Rust in the library's place, which wants no feature. Status 1 where the two sides differ in an answer or a state. list: the cases' numbers and names.
  one: N calls of one case on one side, to count instructions.";

/// Instructions a call, by the case's number: the Rust's and the library's.
type Counts = BTreeMap<usize, (f64, f64)>;

fn counts(args: &Args) -> Option<Counts> {
    let file = args.value("--counts")?;
    let row = |line: &str| {
        let mut words = line.split_whitespace();
        let number = words.next()?.parse().ok()?;
        let mut count = || words.next()?.parse().ok();
        Some((number, (count()?, count()?)))
    };
    Some(args.text(file).lines().filter_map(row).collect())
}

fn verdict(bar: Option<f64>, times: &Times) -> String {
    match bar {
        None => "".into(),
        Some(bar) if times.ratio() <= bar => format!("≤ {bar:.2} met"),
        Some(bar) => format!("≤ {bar:.2} **missed**"),
    }
}

fn row(number: usize, case: &Case, bar: Option<f64>, times: &Times, counts: &Option<Counts>) -> String {
    let (name, ratio) = (case.name, times.ratio());
    let (rust, ours) = (times.rust, times.ours);
    let bar = verdict(bar, times);
    let parts = case.parts() as f64;
    let counted = counts.as_ref().map(|counts| match counts.get(&number) {
        Some((x, y)) => format!(" {:.1} | {:.1} | {:.2} |", x / parts, y / parts, y / x),
        None => " | | |".into(),
    });
    let counted = counted.unwrap_or_default();
    let checked = times
        .checked
        .map(|checked| format!("{checked:.2} | {:.3}", ours / checked));
    let checked = match times.side {
        Side::Ours => format!(" {} |", checked.unwrap_or("| ".into())),
        _ => "".into(),
    };
    format!("| {number} | {name} | {rust:.2} | {ours:.2} | {ratio:.3} | {bar} |{checked}{counted}")
}

/// All cases are gone through this often, so that a busy moment of the machine spoils none of them.
const PASSES: usize = 6;

/// The least times over all passes, or why the two sides differ.
fn least(cases: &[(usize, Case)], side: Side, runs: usize) -> Vec<Result<Times, String>> {
    let pass = || cases.iter().map(|(_, case)| time(case, side, runs.div_ceil(PASSES)));
    let mut best: Vec<_> = pass().collect();
    for _ in 1..PASSES {
        for (best, now) in best.iter_mut().zip(pass()) {
            match (best.as_mut(), now) {
                (Ok(best), Ok(now)) => best.merge(&now),
                (_, Err(e)) => *best = Err(e),
                (Err(_), Ok(_)) => {}
            }
        }
    }
    best
}

/// The library's side, where it is linked.
fn library(args: &Args) -> Side {
    if cfg!(feature = "rattle") {
        Side::Ours
    } else {
        args.fail("the library wants the feature `rattle`; --plain does not")
    }
}

fn table(args: &Args) -> bool {
    let runs = if args.words().len() > 1 {
        args.number(1)
    } else {
        600
    };
    let wanted = |case: &Case| args.value("--only").is_none_or(|text| case.name.contains(text));
    let cases: Vec<_> = (1..).zip(cases()).filter(|(_, case)| wanted(case)).collect();
    if cases.is_empty() {
        args.fail("no case has this name");
    }
    let counts = counts(args);
    let (more, line) = match counts {
        Some(_) => (" Rust instr. | library instr. | ratio |", "---:|---:|---:|"),
        None => ("", ""),
    };
    let side = if args.flag("--plain") { Side::Plain } else { library(args) };
    match side {
        Side::Ours => {
            println!("| # | Case | Rust ns | library ns | ratio | bar | checked Rust ns | ratio |{more}");
            println!("|---:|---|---:|---:|---:|---|---:|---:|{line}");
        }
        _ => {
            println!("| # | Case | Rust ns | plain ns | ratio | bar |{}", more.replace("library", "plain"));
            println!("|---:|---|---:|---:|---:|---|{line}");
        }
    }
    let bar_of = |case: &Case| if side == Side::Ours { case.bar } else { case.plain };
    let (mut met, mut level, mut bars, mut equal) = (0, 0, 0, true);
    for ((number, case), outcome) in cases.iter().zip(least(&cases, side, runs)) {
        match outcome {
            Ok(times) => {
                let bar = bar_of(case);
                bars += bar.is_some() as usize;
                met += bar.is_some_and(|bar| times.ratio() <= bar) as usize;
                level += bar.is_some_and(|bar| times.level_ratio() <= bar) as usize;
                println!("{}", row(*number, case, bar, &times, &counts));
            }
            Err(e) => {
                println!("| {number} | {e} | | | | | | |");
                equal = false;
            }
        }
    }
    let level = match side {
        Side::Ours => format!(", {level} against the Rust with the checks"),
        _ => "".into(),
    };
    let said = if equal { "all equal" } else { "DIFFERENT" };
    println!("\n{met} of {bars} bars met{level}; {said}");
    equal
}

fn one(args: &Args) -> bool {
    args.expect_words(4);
    let number: usize = args.number(1);
    let side = match args.words()[2].as_str() {
        "rust" => Side::Rust,
        "checked" => Side::Checked,
        "ours" => library(args),
        "plain" => Side::Plain,
        _ => args.fail("rust, checked, ours or plain"),
    };
    let cases = cases();
    let Some(case) = cases.get(number.wrapping_sub(1)) else {
        args.fail("no such case")
    };
    let sum = Pair::new(case).run(side, args.number(3));
    println!("{}: {sum:x}", case.name);
    true
}

fn run(args: Args) -> bool {
    match args.words().first().map(String::as_str) {
        Some("time") => table(&args),
        Some("one") => one(&args),
        Some("list") => {
            let cases = cases();
            let rows = cases.iter().enumerate();
            rows.for_each(|(i, case)| println!("{} {}", i + 1, case.name));
            true
        }
        _ => args.fail("time, list or one"),
    }
}

/// All in a thread of 2 MiB of stack, which is as much as a thread of Rust has by default.
fn main() {
    let args = Args::new(USAGE, &["--plain"], &["--only", "--counts"]);
    let thread = std::thread::Builder::new().stack_size(2 << 20);
    let thread = thread.spawn(|| run(args)).expect("a thread");
    finish(thread.join().expect("no panic"))
}
