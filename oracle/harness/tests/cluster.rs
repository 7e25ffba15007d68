//! Four cores over one RAM: the Rust's beside each other four, the mistakes that a cluster might make, faithfulness.
use harness::cluster::boundary::CFour;
use harness::cluster::compare::compare;
use harness::cluster::plain::PlainFour;
use harness::cluster::{Cluster, Four, CORES, NO_CORE};
use harness::domain::Reference;
use harness::faithful::{hold_cores, Seen};
use harness::generate::{trace_of_cores, Style};
use harness::model::{DocFour, Mistake, MISTAKES, OF_CORES};
use harness::{feed, Core, Line, Op, Ram};

const STYLES: [Style; 3] = [Style::Full, Style::Strict, Style::Wild];

fn equal(other: &mut dyn Cluster, seed: u64, n: usize) {
    for style in STYLES {
        if let Some(d) = compare(&trace_of_cores(seed, n, style), other, |_| {}) {
            panic!("{style:?} seed {seed} line {}: {}", d.at + 1, d.report);
        }
    }
}

#[test]
fn model_equals_rust() {
    equal(&mut DocFour::default(), 200, 4000);
}

#[test]
fn boundary_equals_rust() {
    equal(&mut CFour::new(), 201, 1000);
}

#[cfg(feature = "rattle")]
#[test]
fn each_function_equals_the_rust() {
    equal(&mut CFour::by_each(), 202, 3000);
}

#[test]
fn plain_equals_rust() {
    equal(&mut PlainFour::default(), 203, 4000);
}

/// A trace is of one core until a line names one: what is pending then is core 0's, and goes to the others with the next
/// operation.
#[test]
fn one_core_becomes_four() {
    let before = [Line::Op(Op::Level(1)), Line::Op(Op::Sys(0, 8, 3, 0, 31))];
    let all: [Box<dyn Cluster>; 4] = [
        Box::new(Four::<Reference>::default()),
        Box::new(DocFour::default()),
        Box::new(CFour::new()),
        Box::new(PlainFour::default()),
    ];
    for mut four in all {
        let mut ram = Ram::sealable();
        four.restart();
        for line in &before {
            feed(line, four.as_mut(), &mut ram);
        }
        assert_eq!(four.state().broadcast, (1, 0));
        let alone = four.state();
        four.turn(2);
        assert_eq!(four.nth(0), alone);
        assert_eq!(four.step(&Op::Mark(true), &mut ram), harness::Ans::Ok);
        assert_eq!(four.nth(0), alone);
        four.turn(0);
        assert_eq!(four.step(&Op::Level(3), &mut ram), harness::Ans::Ok);
        let flushes = [0, 1, 2, 3].map(|i| four.nth(i).flushes);
        assert_eq!((four.nth(0).broadcast, flushes), ((0, 0), [1; 4]));
        four.turn(4);
        assert_eq!(four.step(&Op::Level(9), &mut ram), NO_CORE);
        four.reset();
        assert!((0..CORES).all(|i| four.nth(i) == harness::rust::RustCore::new().state()));
    }
}

/// Every mistake of four cores shows on some lists; that of an ASID's size on many more, to which `wrong-cores` comes.
#[test]
fn mistakes_are_found() {
    let soon = |m: Mistake| m != Mistake::CoresOwnAsidSize;
    for (mistake, name) in MISTAKES[OF_CORES..].iter().filter(|(m, _)| soon(*m)) {
        let style = if mistake.wants_pending() {
            Style::Wild
        } else {
            Style::Strict
        };
        let mut wrong = DocFour::with_mistake(Some(*mistake));
        let found =
            (1..40).any(|seed| compare(&trace_of_cores(seed, 1000, style), &mut wrong, |_| {}).is_some());
        assert!(found, "{name}");
    }
}

/// A core that did nothing and heard what nobody handed on would be seen: at little cost, or in whole at the end.
#[test]
fn what_moves_without_a_reason_is_seen() {
    let lines = trace_of_cores(5, 400, Style::Strict);
    for (mistake, _) in &MISTAKES[OF_CORES..OF_CORES + 7] {
        let mut wrong = DocFour::with_mistake(Some(*mistake));
        assert!(compare(&lines, &mut wrong, |_| {}).is_some(), "{mistake:?}");
    }
}

#[test]
fn four_are_faithful_and_not_where_one_is_deaf() {
    let lines: Vec<_> = (1..4)
        .map(|seed| trace_of_cores(seed, 2000, Style::Strict))
        .collect();
    let hold = |four: &mut dyn Cluster| {
        let mut seen = Seen::default();
        let held = lines
            .iter()
            .try_for_each(|lines| hold_cores(lines, four, &mut seen));
        held.map(|()| seen.heard)
    };
    assert!(hold(&mut Four::<Reference>::default()).unwrap() > 100);
    assert!(hold(&mut PlainFour::default()).unwrap() > 100);
    for mistake in [
        Mistake::CoresLastDeaf,
        Mistake::CoresNextAlone,
        Mistake::CoresLate,
        Mistake::CoresHintsAlone,
        Mistake::CoresHintsKept,
        Mistake::CoresModulo,
    ] {
        assert!(
            hold(&mut DocFour::with_mistake(Some(mistake))).is_err(),
            "{mistake:?}"
        );
    }
}
