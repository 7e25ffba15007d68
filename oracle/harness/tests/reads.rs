//! The descriptors that an operation reads: whose they are, and that each mistake shows in nothing else.
use harness::compare::compare;
use harness::model::{DocCore, Mistake};
use harness::rust::RustCore;
use harness::{domain, feed, Core, Line, Op, Ram};

/// Every count from 0 to 8.
const READS: &str = include_str!("../../../recorded/reads.trace");

fn lines(text: &str) -> Vec<Line> {
    Line::parse_all(text).unwrap().into_iter().map(|l| l.1).collect()
}

#[test]
fn each_mistake_shows_in_nothing_else() {
    use Mistake::*;
    let trace = lines(READS);
    assert!(compare(&trace, &mut DocCore::new(), |_| {}).is_none());
    for mistake in [
        ReadsFailedLeftOut,
        ReadsRefusedOne,
        ReadsFirstPageAlone,
        ReadsLastStore,
        ReadsAtNone,
        ReadsEntryRepeats,
    ] {
        let (mut rust, mut wrong) = (RustCore::new(), DocCore::with_mistake(Some(mistake)));
        let mut rams = [Ram::default(), Ram::default()];
        let mut apart = 0;
        for line in &trace {
            let answer = domain::feed(line, &mut rust, &mut rams[0]).0;
            assert!(
                answer == feed(line, &mut wrong, &mut rams[1]),
                "{mistake:?}: {line}"
            );
            assert!(
                rust.state() == wrong.state() && rams[0] == rams[1],
                "{mistake:?}: {line}"
            );
            apart += usize::from(rust.reads() != wrong.reads());
        }
        assert!(apart > 0, "{mistake:?}");
    }
}

#[test]
fn every_count_is_there() {
    let (mut rust, mut ram) = (RustCore::new(), Ram::default());
    let mut seen = [0; 9];
    for line in lines(READS) {
        domain::feed(&line, &mut rust, &mut ram);
        if matches!(line, Line::Op(op) if op.reports()) {
            seen[rust.reads() as usize] += 1;
        }
    }
    assert!(seen.iter().all(|n| *n > 1), "{seen:?}");
}

/// Of the operation after these lines pimu read eight bytes this often, and descriptors this often.
fn read(after: &str, op: Op) -> [u64; 2] {
    let (mut rust, mut ram) = (RustCore::new(), Ram::default());
    for line in lines(after) {
        feed(&line, &mut rust, &mut ram);
    }
    let before = ram.reads;
    rust.step(&op, &mut ram);
    [ram.reads - before, rust.reads()]
}

/// A load's own eight bytes are read at once, or byte by byte; a census walks and reports nothing.
#[test]
fn what_is_no_descriptor() {
    let flat = "window 1000 3000";
    assert_eq!(read(flat, Op::Load(0x1000, 8)), [1, 0]);
    assert_eq!(read(flat, Op::Load(0x1FFC, 8)), [1, 0]);
    assert_eq!(read(flat, Op::Load(0x5000, 8)), [1, 0]);
    assert_eq!(read(flat, Op::Load(0x1000, 4)), [0, 0]);
    assert_eq!(read(flat, Op::Store(0x1000, 8, 1)), [0, 0]);
    let tables = "window 1000 3000\npoke 1008 401\nreg c102 19\nreg c100 1000\nreg c080 1\nlevel 1";
    assert_eq!(read(tables, Op::Load(0x4000_2000, 8)), [2, 1]);
    assert_eq!(read(tables, Op::Load(0x4000_0000, 8)), [2, 1]);
    assert_eq!(read(tables, Op::Load(0x4000_2FFC, 8)), [2, 2]);
    assert_eq!(read(tables, Op::Load(0x4000_2FFC, 2)), [1, 1]);
    assert_eq!(read(tables, Op::Census(0x4000_0000, 5)), [5, 0]);
    assert_eq!(read(tables, Op::LeafWalk(1, 0x4000_0000)), [1, 1]);
    assert_eq!(read(tables, Op::Load(0x4000_2000, 3)), [0, 0]);
    assert_eq!(
        read(&format!("{tables}\np-level 4"), Op::Load(0x4000_2000, 8)),
        [0, 0]
    );
}
