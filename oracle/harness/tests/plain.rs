//! The core as plain Rust: the cases of `bench`, and mistakes that a comparison with it shows.
use a72::Walk;
use harness::bench::{cases, Pair, Side};
use harness::compare::compare;
use harness::generate::{trace, Style};
use harness::model::{DocCore, MISTAKES};
use harness::plain::PlainCore;
use harness::{feed, Core, Line, Op, Ram};

#[test]
fn both_sides_of_every_case_agree() {
    for case in cases() {
        let mut pair = Pair::new(&case);
        for n in 1..case.calls(16) {
            assert_eq!(pair.run(Side::Rust, n), pair.run(Side::Plain, n), "{}", case.name);
            assert!(pair.agree(Side::Plain), "{}", case.name);
        }
    }
}

/// What one core holds goes into another, and both go on alike.
#[test]
fn a_state_is_handed_on() {
    for seed in 40..46 {
        let (mut first, mut ram) = (PlainCore::default(), Ram::sealable());
        for line in trace(seed, 300, Style::Wild) {
            feed(&line, &mut first, &mut ram);
        }
        let mut second = PlainCore::default();
        second.load(&first.state());
        assert_eq!(second.state(), first.state(), "seed {seed}");
        let mut copy = first.copy();
        let mut twin = Ram::of(ram.base, ram.bytes.to_vec());
        for line in trace(seed + 100, 200, Style::Strict).iter().skip(1) {
            assert_eq!(
                feed(line, &mut second, &mut twin),
                feed(line, copy.as_mut(), &mut ram),
                "{line}"
            );
        }
        assert_eq!(second.state(), copy.state(), "seed {seed}");
    }
}

/// `walk` ends as the census says of the page, on any core: the census is compared with pimu's page by page.
#[test]
fn a_walk_ends_as_the_census_says() {
    let (mut mapped, mut faults, mut flat, mut walks) = (0, 0, 0, 0);
    for (style, seeds) in [(Style::Full, 60..66), (Style::Wild, 66..72)] {
        for seed in seeds {
            let (mut plain, mut ram) = (PlainCore::default(), Ram::default());
            for line in trace(seed, 600, style) {
                feed(&line, &mut plain, &mut ram);
                let Line::Op(Op::Translate(_, va) | Op::Load(va, _) | Op::Fetch(va)) = line else {
                    continue;
                };
                let window = a72::Ram::new(ram.base, &mut ram.bytes);
                let (walk, census) = (
                    plain.core().walk(&window, va),
                    plain.core().census(&window, va, 1),
                );
                match (walk, census) {
                    (Ok(Walk::Flat(_)), Ok(census)) => flat += census.flat,
                    (Ok(Walk::Fault(status)), Ok(census)) => faults += census.with_status(status),
                    (Ok(Walk::Mapped(found)), Ok(census)) => {
                        assert_eq!((found.pa ^ va) & 0xFFF, 0, "{line}");
                        mapped += census.rights[usize::from(found.rights.0)];
                    }
                    (Err(a), Err(b)) => {
                        assert_eq!(a, b, "{line}");
                        continue;
                    }
                    both => panic!("{line}: {both:?}"),
                }
                walks += 1;
                assert_eq!(mapped + faults + flat, walks, "{line}");
            }
        }
    }
    assert!(
        mapped > 100 && faults > 100 && flat > 100,
        "{mapped} {faults} {flat}"
    );
}

/// The comparison is not blind: a core with a mistake differs from pimu's where the plain one does not.
#[test]
fn a_mistake_would_show() {
    let lines = trace(7, 4000, Style::Full);
    assert!(compare(&lines, &mut PlainCore::default(), |_| {}).is_none());
    let seen = MISTAKES.iter().filter(|(mistake, _)| {
        let mut wrong = DocCore::with_mistake(Some(*mistake));
        compare(&lines, &mut wrong, |_| {}).is_some()
    });
    assert!(seen.count() > MISTAKES.len() / 2);
}
