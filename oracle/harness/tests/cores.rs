//! The Rust beside the model and beside the C boundary; mistakes, faithfulness and the walk's parameters in small.
use harness::compare::compare;
use harness::domain::Reference;
use harness::faithful;
use harness::ffi::{boxed, state_of, CCore};
use harness::generate::{trace, Rng, Style};
use harness::grid::{Ask, Grid};
use harness::model::{DocCore, Mistake};
use harness::rust::{Rule, RustCore};
use harness::shrink::shrink;
use harness::tally::Tally;
use harness::{feed, place, Core, Line, Ram};

fn equal(other: &mut dyn Core, seed: u64, n: usize, style: Style) {
    if let Some(d) = compare(&trace(seed, n, style), other, |_| {}) {
        panic!("seed {seed} line {}: {}", d.at + 1, d.report);
    }
}

#[test]
fn model_equals_rust() {
    for style in [Style::Full, Style::Strict, Style::Wild] {
        equal(&mut DocCore::new(), 100, 5000, style);
    }
}

#[test]
fn boundary_equals_rust() {
    for style in [Style::Full, Style::Strict, Style::Wild] {
        equal(&mut CCore::new(), 101, 1000, style);
    }
}

/// Judged in place as by the whole states, also where a word was changed.
#[test]
fn words_are_judged_as_states_are() {
    let (mut rust, mut ram) = (RustCore::new(), Ram::default());
    let mut r = Rng::new(103);
    for line in trace(103, 2000, Style::Wild) {
        feed(&line, &mut rust, &mut ram);
        let mut words = boxed(&rust.state());
        assert!(rust.is_held_by(&words));
        let at = if r.percent(50) {
            r.below(110)
        } else {
            r.below(place::WORDS as u64)
        } as usize;
        words[at] ^= 1 << r.below(64);
        // A word that is too large for its place is the largest there is in a state; in place it is a difference.
        let (is, by_state) = (rust.is_held_by(&words), rust.state() == state_of(&words[..]));
        let largest = if at == place::ASID { 0xFFFF } else { 0xFFFF_FFFF };
        assert!(is == by_state || !is && words[at] > largest, "{at}");
    }
}

/// A write through a sealed window ends the run; here that of a child.
#[test]
fn a_sealed_window_cannot_be_written() {
    let mut ram = Ram::sealable();
    ram.bytes.resize(8);
    if std::env::var_os("A72_WRITE_SEALED").is_some() {
        unsafe { *ram.bytes.lent(false) = 1 };
        return;
    }
    let child = std::process::Command::new(std::env::current_exe().unwrap())
        .args(["--exact", "a_sealed_window_cannot_be_written"])
        .env("A72_WRITE_SEALED", "1")
        .output();
    assert!(!child.unwrap().status.success());
}

#[test]
fn what_the_boundary_leaves_out_is_counted() {
    let mut tally = Tally::default();
    let lines = trace(102, 2000, Style::Full);
    assert!(compare(&lines, &mut CCore::new(), |step| tally.note(&step)).is_none());
    let leaves = lines
        .iter()
        .filter(|line| matches!(line, Line::Op(op) if op.is_leaf()));
    assert_eq!(tally.left_out, leaves.count() as u64);
    assert!(tally.left_out > 0 && tally.operations > tally.left_out);
}

#[test]
fn a_mistake_is_found_and_shrunk() {
    let mut wrong = DocCore::with_mistake(Some(Mistake::PageKeepsHints));
    let differs = |lines: &[Line]| compare(lines, &mut wrong, |_| {}).map(|d| d.at);
    let short = shrink(trace(1, 3000, Style::Strict), differs).expect("a difference");
    assert!(short.len() < 20, "{} lines", short.len());
    assert!(compare(&short, &mut wrong, |_| {}).is_some());
    assert!(compare(&short, &mut DocCore::new(), |_| {}).is_none());
}

#[test]
fn the_rust_is_faithful_and_not_without_flush_or_retag() {
    let hold = |rule| {
        let mut core = Reference {
            rust: RustCore::with_rule(rule),
            ..Reference::default()
        };
        faithful::hold(&trace(1, 3000, Style::Strict), &mut core, &mut Default::default())
    };
    assert_eq!(hold(Rule::Document), Ok(()));
    assert_eq!(hold(Rule::Pimu), Ok(()));
    assert!(hold(Rule::NoFlush).is_err());
    assert!(hold(Rule::NoRetag).is_err());
}

#[test]
fn every_walk_parameter() {
    for ask in [Ask::Leaf, Ask::List] {
        let mut model = DocCore::new();
        assert_eq!(Grid::new(&mut model, ask).round(), Ok(()));
    }
}
