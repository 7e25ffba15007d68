//! Flipped bits: that each mistake shows, who judges which, and that every bit of small windows is tried.
use harness::compare::compare;
use harness::domain::{judge, Judge};
use harness::flips::{scene, Cell, Flips};
use harness::generate::Rng;
use harness::model::{DocCore, MISTAKES};
use harness::plain::PlainCore;
use harness::rust::RustCore;
use harness::{domain, feed, Ans, Core, Line, Op, Ram};

const TRACE: &str = include_str!("../../../recorded/flips.trace");

fn lines(text: &str) -> Vec<Line> {
    Line::parse_all(text).unwrap().into_iter().map(|l| l.1).collect()
}

fn is_flip(line: &Line) -> bool {
    matches!(line, Line::Op(Op::Flip(..)))
}

/// The mistakes of flipped bits show in the trace that is written by hand, and in nothing but their answers, RAM and the
/// counter of walks.
#[test]
fn each_mistake_shows() {
    let trace = lines(TRACE);
    assert!(compare(&trace, &mut DocCore::new(), |_| {}).is_none());
    let of_flips = || {
        MISTAKES
            .iter()
            .filter(|(m, _)| format!("{m:?}").starts_with("Flip"))
    };
    assert_eq!(of_flips().count(), 19);
    for (mistake, name) in of_flips() {
        let (mut rust, mut wrong) = (RustCore::new(), DocCore::with_mistake(Some(*mistake)));
        let mut rams = [Ram::default(), Ram::default()];
        let mut apart = 0;
        for line in &trace {
            let answer = domain::feed(line, &mut rust, &mut rams[0]).0;
            let other = feed(line, &mut wrong, &mut rams[1]);
            assert!(rust.state().regs == wrong.state().regs, "{name}: {line}");
            let counted = rust.state().walks() != wrong.state().walks();
            let moved = rams[0] != rams[1];
            apart += usize::from(answer != other || counted || moved);
            assert!(is_flip(line) || answer == other || apart > 0, "{name}: {line}");
        }
        assert!(apart > 0, "{name}");
    }
}

/// With stage 1 off an address from 2^44 on leaves the Rust's domain, a tag's too.
#[test]
fn who_judges() {
    let (mut rust, edge, ram) = (RustCore::new(), 1u64 << 44, Ram::of(0, vec![0; 0x1000]));
    let by = |rust: &RustCore, va: u64| judge(&Op::Flip(1, false, va), rust, &ram);
    assert_eq!(by(&rust, edge - 1), Judge::Rust);
    assert_eq!(by(&rust, edge), Judge::Model);
    assert_eq!(by(&rust, 0x5A << 56), Judge::Model);
    rust.cpu.el = 4;
    assert_eq!(by(&rust, edge), Judge::Rust);
    rust.cpu.el = 3;
    for line in lines("reg f080 1") {
        feed(&line, &mut rust, &mut Ram::default());
    }
    assert_eq!(by(&rust, edge), Judge::Rust);
}

/// Each of the two bits is found at each level that may begin with it, and none where no bit is; scenes have all that the
/// six flips of each may ask.
#[test]
fn rounds_find_each_end() {
    for mut other in [
        Box::new(DocCore::new()) as Box<dyn Core>,
        Box::new(PlainCore::default()),
    ] {
        let mut flips = Flips::new(other.as_mut());
        flips.round().unwrap();
        assert_eq!(flips.flips, 6 * 512);
        assert_eq!(flips.seen.len(), 6);
        for (head, answers) in &flips.seen {
            // Where a block may stand.
            let none = [(4, 1), (4, 2), (64, 2)]
                .map(|(size, level)| format!("granule {size} KiB, start level {level}"))
                .contains(head);
            assert!(answers["bit 0"] > 0 && answers["none"] > 0, "{head}");
            assert_eq!(answers.contains_key("bit 1"), !none, "{head}");
            assert!(answers
                .keys()
                .all(|a| ["bit 0", "bit 1", "none", "no 2"].contains(&a.as_str())));
        }
    }
}

/// RAM stays as it is, and the answer is that of a board whose cell is bad: flipped there, the translation differs.
#[test]
fn what_is_found_changes_the_answer() {
    let mut r = Rng::new(15);
    let (mut found, mut none) = (0, 0);
    for _ in 0..400 {
        let (mut core, mut ram) = (RustCore::new(), Ram::default());
        for line in scene(&Cell::any(&mut r), &mut r) {
            let before = ram.clone();
            let answer = domain::feed(&line, &mut core, &mut ram).0;
            let Line::Op(Op::Flip(kind, _, va)) = line else {
                continue;
            };
            assert!(ram == before);
            // As the core itself would translate it, with nothing cached.
            let mut fresh = DocCore::new();
            fresh.load(&core.state());
            let what = |ram: &Ram| fresh.regs.translation_without_cache(ram, kind, va);
            match answer {
                Some(Ans::Bit(at, bit)) => {
                    let mut bad = ram.clone();
                    bad.poke(at, ram.get(at, 8).unwrap() ^ 1 << bit);
                    assert_ne!(what(&bad), what(&ram));
                    found += 1;
                }
                Some(Ans::None) => none += 1,
                _ => {}
            }
        }
    }
    assert!(found > 300 && none > 300, "{found} {none}");
}
