//! Accesses over two pages whose second page faults: which of them go by the order of faults, and that each mistake shows.
use harness::compare::compare;
use harness::domain::{judge, Judge, Outside};
use harness::model::{DocCore, Mistake};
use harness::rust::RustCore;
use harness::{feed, Core, Line, Op, Ram};

fn lines(text: &str) -> Vec<Line> {
    Line::parse_all(text).unwrap().into_iter().map(|l| l.1).collect()
}

/// Blocks of 1 GiB at 0x40000000 and 0xc0000000, no page elsewhere; the window ends four bytes before the first block.
const BLOCKS: &str = "
    window bfff8000 7ffc
    reg c102 80190019
    reg c100 bfff8000
    reg c080 1
    poke bfff8008 80000401
    poke bfff8018 80000401
    level 1
";

/// Who carries out the operation after these lines. Neither core nor RAM moves.
fn judged(after: &str, op: Op) -> Judge {
    let (mut rust, mut ram) = (RustCore::new(), Ram::default());
    for line in lines(&format!("{BLOCKS}{after}")) {
        feed(&line, &mut rust, &mut ram);
    }
    let before = (rust.state(), ram.clone());
    let by = judge(&op, &rust, &ram);
    assert!(before == (rust.state(), ram));
    by
}

#[test]
fn a_byte_of_the_first_page_comes_first() {
    let at = |va, second| {
        let pa = va + 0x4000_0000;
        Judge::Crossing(Outside { va, pa, second })
    };
    assert_eq!(judged("", Op::Load(0x7FFF_FFFD, 8)), at(0x7FFF_FFFD, 0x05));
    assert_eq!(judged("", Op::Store(0x7FFF_FFF9, 8, 0)), at(0x7FFF_FFFC, 0x05));
    assert_eq!(judged("", Op::Load(0x7FFF_FFFF, 2)), at(0x7FFF_FFFF, 0x05));
    // By a hint, with its table out of RAM.
    let hinted = "tr 1 7ffff000\nreg c100 c0000000";
    assert_eq!(judged(hinted, Op::Load(0x7FFF_FFFF, 8)), at(0x7FFF_FFFF, 0x15));
}

#[test]
fn all_else_stays_with_the_rust() {
    let load = |va, n| judged("", Op::Load(va, n));
    // One page; the first page faults; a size that there is not; a translation; a fetch.
    assert_eq!(load(0x7FFF_FFF8, 8), Judge::Rust);
    assert_eq!(load(0xBFFF_FFFF, 8), Judge::Rust);
    assert_eq!(load(0x7FFF_FFFE, 3), Judge::Rust);
    assert_eq!(judged("", Op::Translate(1, 0x7FFF_FFFF)), Judge::Rust);
    assert_eq!(judged("", Op::Fetch(0x7FFF_FFFE)), Judge::Rust);
    // Both pages translate, and all bytes of the first are outside, or only the second page's.
    let both = "poke bfff8010 40000401";
    assert_eq!(judged(both, Op::Load(0x7FFF_FFFE, 8)), Judge::Rust);
    assert_eq!(
        judged(&format!("{both}\nwindow bfff8000 8000"), Op::Load(0x7FFF_FFFE, 8)),
        Judge::Rust
    );
    // The second page faults, and the first page's bytes are inside; stage 1 is off; a level that there is not.
    assert_eq!(
        judged("window bfff8000 8000", Op::Load(0x7FFF_FFFE, 8)),
        Judge::Rust
    );
    assert_eq!(judged("reg c080 0", Op::Load(0x7FFF_FFFE, 8)), Judge::Rust);
    assert_eq!(judged("p-level 4", Op::Load(0x7FFF_FFFE, 8)), Judge::Rust);
}

#[test]
fn each_mistake_shows() {
    use Mistake::*;
    let trace = lines(include_str!("../../../recorded/crossing.trace"));
    assert!(compare(&trace, &mut DocCore::new(), |_| {}).is_none());
    for mistake in [
        CrossingOldOrder,
        CrossingKeepsAbortPa,
        CrossingSetsLastPa,
        CrossingWritesBefore,
        CrossingFirstByteAlone,
        CrossingJudgesAll,
        CrossingStopsAtFirst,
    ] {
        let mut wrong = DocCore::with_mistake(Some(mistake));
        assert!(compare(&trace, &mut wrong, |_| {}).is_some(), "{mistake:?}");
    }
}
