//! The counters for each level: what the sums alone would not show, wraps, and the words that hold nothing.
use harness::compare::compare;
use harness::domain;
use harness::ffi::{boxed, CCore, LEVEL_WORDS, RETIRED};
use harness::generate::{trace, Style};
use harness::model::{DocCore, Mistake};
use harness::rust::RustCore;
use harness::state::LevelCounters;
use harness::wild::Part;
use harness::{feed, place, Core, Line, Ram};

/// Counts at a wrong level leave the sums right: each level's own pair shows them.
#[test]
fn levels_show_what_sums_do_not() {
    for mistake in [
        Mistake::CountedByMark,
        Mistake::FetchCountedByMark,
        Mistake::CountedAtRegime,
        Mistake::SecondPageCountedAtRegime,
        Mistake::ZeroCountedAtRegime,
        Mistake::El3CountedAtEl2,
        Mistake::HitCountedAtWalk,
        Mistake::CountedAtEl0,
    ] {
        let mut wrong = DocCore::with_mistake(Some(mistake));
        let (mut rust, mut rams) = (RustCore::new(), [Ram::default(), Ram::default()]);
        let mut apart = false;
        for line in trace(1, 3000, Style::Strict) {
            let answers = (
                domain::feed(&line, &mut rust, &mut rams[0]).0,
                feed(&line, &mut wrong, &mut rams[1]),
            );
            let (mut s, t) = (rust.state(), wrong.state());
            assert_eq!((s.hits(), s.walks()), (t.hits(), t.walks()), "{mistake:?}");
            apart |= s.levels != t.levels;
            s.levels = t.levels;
            assert!(answers.0 == answers.1 && s == t, "{mistake:?}");
        }
        assert!(apart, "{mistake:?}");
    }
}

/// Tables for every regime: a block of 1 GiB at 0x40000000.
const BLOCK: &str = "
    window 80000000 2000
    poke 80001008 80000441
    reg c102 280000019
    reg c100 80001000
    reg e102 20019
    reg e100 80001000
    reg f102 20019
    reg f100 80001000
    reg c080 1
    reg e080 1
    reg f080 1
";

/// A walk and a hit at each level, from the last number on; the other levels stay.
#[test]
fn each_counter_wraps() {
    for level in 0..4 {
        let (hits, walks) = (place::LEVEL_HITS + level, place::LEVEL_WALKS + level);
        let text = format!(
            "{BLOCK}w-word {hits:x} {0:x}\nw-word {walks:x} {0:x}\nlevel {level}\ntr 1 40000000\ntr 2 40000000",
            u64::MAX
        );
        let lines: Vec<Line> = Line::parse_all(&text).unwrap().into_iter().map(|l| l.1).collect();
        let (mut model, mut boundary) = (DocCore::new(), CCore::new());
        for core in [&mut model as &mut dyn Core, &mut boundary] {
            assert!(compare(&lines, core, |_| {}).is_none());
            assert_eq!(core.state().levels, [LevelCounters::default(); 4]);
            assert_eq!((core.state().hits(), core.state().walks()), (0, 0));
        }
    }
}

/// Each of the eight words is judged, also where the sums are as they were.
#[test]
fn each_level_is_judged_in_place() {
    let (mut rust, mut ram) = (RustCore::new(), Ram::default());
    for line in trace(1, 500, Style::Wild) {
        feed(&line, &mut rust, &mut ram);
    }
    let words = boxed(&rust.state());
    for from in LEVEL_WORDS {
        let same = |to: &usize| (from < place::LEVEL_WALKS) == (*to < place::LEVEL_WALKS) && *to != from;
        for to in LEVEL_WORDS.filter(same) {
            let mut moved = words.clone();
            (moved[from], moved[to]) = (words[from].wrapping_sub(1), words[to].wrapping_add(1));
            assert!(!rust.is_held_by(&moved), "{from} {to}");
        }
    }
}

/// What a core is restored from in the words that hold nothing does not matter.
#[test]
fn retired_words_do_not_matter() {
    let lines = trace(104, 2000, Style::Full);
    for junk in [0, 1, u64::MAX] {
        let mut core = CCore::new();
        let (mut rust, mut rams) = (RustCore::new(), [Ram::default(), Ram::sealable()]);
        for line in &lines {
            let answers = (
                domain::feed(line, &mut rust, &mut rams[0]).0,
                feed(line, &mut core, &mut rams[1]),
            );
            assert!(
                answers.1.is_none() || answers.0 == answers.1 && core.holds(&rust),
                "{line}"
            );
            RETIRED.for_each(|at| core.put(&Part::Word(at as u16, junk)));
            assert!(core.holds(&rust), "{line}");
        }
    }
}
