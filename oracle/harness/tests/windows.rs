//! Lists of voice windows: that each mistake shows, who judges which, and that bytes are taken once.
use harness::compare::compare;
use harness::domain::{judge, Judge};
use harness::model::{DocCore, MISTAKES};
use harness::rust::RustCore;
use harness::windows::{encode, Piece, Window};
use harness::{domain, feed, Ans, Core, Line, Op, Ram};

const TRACE: &str = include_str!("../../../recorded/windows.trace");

fn lines(text: &str) -> Vec<Line> {
    Line::parse_all(text).unwrap().into_iter().map(|l| l.1).collect()
}

/// The mistakes of lists show in the trace that is written by hand, and in nothing but answers and the counter of walks.
#[test]
fn each_mistake_shows() {
    let trace = lines(TRACE);
    assert!(compare(&trace, &mut DocCore::new(), |_| {}).is_none());
    let of_lists = || {
        MISTAKES
            .iter()
            .filter(|(m, _)| format!("{m:?}").starts_with("Windows"))
    };
    assert_eq!(of_lists().count(), 23);
    for (mistake, name) in of_lists() {
        let (mut rust, mut wrong) = (RustCore::new(), DocCore::with_mistake(Some(*mistake)));
        let mut rams = [Ram::default(), Ram::default()];
        let mut apart = 0;
        for line in &trace {
            let answer = domain::feed(line, &mut rust, &mut rams[0]).0;
            let other = feed(line, &mut wrong, &mut rams[1]);
            assert!(
                rams[0] == rams[1] && rust.state().regs == wrong.state().regs,
                "{name}: {line}"
            );
            let counted = rust.state().walks() != wrong.state().walks();
            apart += usize::from(answer != other || counted);
            assert!(
                *line == Line::Op(Op::Windows) || answer == other,
                "{name}: {line}"
            );
        }
        assert!(apart > 0, "{name}");
    }
}

fn ask(start: u64, pages: u16) -> Ram {
    let mut ram = Ram::of(0, vec![0; 0x1000]);
    let bytes = encode(&[Window { start: 0, pages: 1 }, Window { start, pages }]);
    ram.list.extend(bytes);
    ram
}

/// With stage 1 off a page from 2^44 on leaves the Rust's domain, a tag's too.
#[test]
fn who_judges() {
    let (mut rust, edge) = (RustCore::new(), 1u64 << 44);
    let by = |rust: &RustCore, ram: &Ram| judge(&Op::Windows, rust, ram);
    assert_eq!(by(&rust, &ask(edge - 0x2000, 2)), Judge::Rust);
    assert_eq!(by(&rust, &ask(edge - 0x1000, 2)), Judge::Model);
    assert_eq!(by(&rust, &ask(0x5A << 56, 1)), Judge::Model);
    // No right list; a level that there is not; stage 1 on.
    assert_eq!(by(&rust, &ask(edge, 17)), Judge::Rust);
    rust.cpu.el = 4;
    assert_eq!(by(&rust, &ask(edge, 1)), Judge::Rust);
    rust.cpu.el = 3;
    for line in lines("reg f080 1") {
        feed(&line, &mut rust, &mut Ram::default());
    }
    assert_eq!(by(&rust, &ask(edge, 1)), Judge::Rust);
}

/// The bytes stay until a list is asked for, refused or not, and are gone then; a fresh core takes none.
#[test]
fn bytes_are_taken_once() {
    let cores: [Box<dyn Core>; 2] = [Box::new(RustCore::new()), Box::new(DocCore::new())];
    for mut core in cores {
        let mut ram = Ram::default();
        let mut answer = |line: &Line, ram: &mut Ram| feed(line, core.as_mut(), ram);
        let win = Line::Op(Op::Windows);
        let empty: Vec<Line> = Piece::all(&[0, 0]).map(Line::Bytes).collect();
        assert_eq!(answer(&empty[0], &mut ram), None);
        answer(&Line::Fresh, &mut ram);
        answer(&Line::Zero, &mut ram);
        assert_eq!(answer(&win, &mut ram), Some(Ans::None));
        assert_eq!(answer(&win, &mut ram), Some(Ans::Number(9)));
        answer(&empty[0], &mut ram);
        answer(&empty[0], &mut ram);
        assert_eq!(answer(&win, &mut ram), Some(Ans::Number(9)));
        assert!(ram.list.is_empty());
    }
}

/// A line of many bytes is several pieces, and comes to the same.
#[test]
fn long_lines_are_several() {
    let digits = "0a".repeat(1024);
    let parsed = lines(&format!("bytes {digits}"));
    assert_eq!(parsed.len(), 1024usize.div_ceil(Piece::MOST));
    let (mut core, mut ram) = (RustCore::new(), Ram::default());
    for line in &parsed {
        feed(line, &mut core, &mut ram);
    }
    assert_eq!(ram.list, [10; 1024]);
    assert!(Line::parse(&format!("bytes {digits}0a")).is_err());
    assert_eq!(parsed[1], lines(&parsed[1].to_string())[0]);
}
