//! With the feature `rattle`: the library's function for each operation, and the cases of `bench`.
#![cfg(feature = "rattle")]
use harness::bench::{cases, Pair, Side};
use harness::compare::compare;
use harness::ffi::CCore;
use harness::generate::{trace, Style};
use harness::grid::{Ask, Grid};

#[test]
fn each_function_equals_the_rust() {
    for style in [Style::Full, Style::Strict, Style::Wild] {
        if let Some(d) = compare(&trace(103, 3000, style), &mut CCore::by_each(), |_| {}) {
            panic!("line {}: {}", d.at + 1, d.report);
        }
    }
}

#[test]
fn every_walk_parameter() {
    assert_eq!(Grid::new(&mut CCore::by_each(), Ask::List).round(), Ok(()));
}

#[test]
fn both_sides_of_every_case_agree() {
    for case in cases() {
        let mut pair = Pair::new(&case);
        for n in 1..case.calls(32) {
            assert_eq!(pair.run(Side::Rust, n), pair.run(Side::Ours, n), "{}", case.name);
            assert!(pair.agree(Side::Ours), "{}", case.name);
        }
    }
}
