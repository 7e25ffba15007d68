//! Least times of many runs.
use super::{Case, Pair, Side};
use std::time::Instant;

/// Nanoseconds a call, or a page of a census: the least of all runs.
pub struct Times {
    /// The side beside the Rust, and its time.
    pub side: Side,
    pub rust: f64,
    pub ours: f64,
    /// The Rust with the checks, where the case has that side.
    pub checked: Option<f64>,
}

impl Times {
    pub fn ratio(&self) -> f64 {
        self.ours / self.rust
    }

    /// The ratio to the Rust with the checks, where there is one.
    pub fn level_ratio(&self) -> f64 {
        self.ours / self.checked.unwrap_or(self.rust)
    }

    /// The lesser of each side.
    pub fn merge(&mut self, other: &Times) {
        self.rust = self.rust.min(other.rust);
        self.ours = self.ours.min(other.ours);
        self.checked = self.checked.zip(other.checked).map(|(a, b)| a.min(b));
    }
}

/// How long one run lasts, about.
const RUN: f64 = 40_000.0;

/// How long a run of `n` calls takes, and the sum of the answers.
fn run(pair: &mut Pair, side: Side, n: usize) -> (f64, u64) {
    let begin = Instant::now();
    let sum = pair.run(side, n);
    (begin.elapsed().as_nanos() as f64, sum)
}

/// The least time of runs of one side, and of runs of no call.
struct Least {
    all: f64,
    none: f64,
}

impl Least {
    fn new() -> Least {
        Least {
            all: f64::MAX,
            none: f64::MAX,
        }
    }

    /// One run more; the sum of its answers.
    fn add(&mut self, pair: &mut Pair, side: Side, n: usize) -> u64 {
        let (none, _) = run(pair, side, 0);
        let (all, sum) = run(pair, side, n);
        self.none = self.none.min(none);
        self.all = self.all.min(all);
        sum
    }

    fn a_call(&self, n: usize) -> f64 {
        (self.all - self.none) / n as f64
    }
}

/// The time of the side with the checks, after all was compared.
fn checked(pair: &mut Pair, runs: usize, n: usize) -> Option<f64> {
    let mut least = Least::new();
    let timed = pair.has_checked();
    (0..runs).filter(|_| timed).for_each(|_| {
        least.add(pair, Side::Checked, n);
    });
    timed.then(|| least.a_call(n))
}

/// Time one case by `runs` runs of the Rust and of another side in turn. The error says where answers, states or RAM
/// differed.
pub fn time(case: &Case, other: Side, runs: usize) -> Result<Times, String> {
    let mut pair = Pair::new(case);
    let differ = |what| Err(format!("{}: {what} differ", case.name));
    for n in 1..case.calls(64) {
        if pair.run(Side::Rust, n) != pair.run(other, n) {
            return differ("answers");
        }
        if !pair.agree(other) {
            return differ("states or RAM");
        }
    }
    let few = case.calls(64);
    let (some, _) = run(&mut pair, Side::Rust, few);
    let n = ((few as f64 * RUN / some) as usize).clamp(case.calls(16), 4000) & !1;
    pair.run(other, few);
    let runs = if case.is_long() { runs.div_ceil(10) } else { runs };
    let parts = case.parts() as f64;
    let (mut rust, mut ours) = (Least::new(), Least::new());
    for _ in 0..runs {
        if rust.add(&mut pair, Side::Rust, n) != ours.add(&mut pair, other, n) {
            return differ("answers");
        }
    }
    if !pair.agree(other) {
        return differ("states or RAM");
    }
    let timed = (other == Side::Ours).then(|| checked(&mut pair, runs, n)).flatten();
    Ok(Times {
        side: other,
        rust: rust.a_call(n) / parts,
        ours: ours.a_call(n) / parts,
        checked: timed.map(|time| time / parts),
    })
}
