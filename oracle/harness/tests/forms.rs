//! Text and words: what is written is read back.
use harness::census::COUNTS;
use harness::ffi::{decode, decode_answer, encode, encode_answer, state_of, words_of};
use harness::generate::{trace, Style};
use harness::place::WORDS;
use harness::rust::RustCore;
use harness::state::LevelCounters;
use harness::{feed, Ans, Core, Line, Op, Ram};
use pimu::aarch64::Exception;

fn exceptions() -> [Exception; 8] {
    [
        Exception::Undefined,
        Exception::Svc(1),
        Exception::Hvc(0xFFFF),
        Exception::Smc(2),
        Exception::Brk(3),
        Exception::DataAbort {
            addr: u64::MAX,
            write: true,
            fsc: 0xFF,
        },
        Exception::InsnAbort {
            addr: 1 << 63,
            fsc: 0x10,
        },
        Exception::PcAlignment,
    ]
}

/// Every operation, with values that fill their fields.
fn operations() -> Vec<Op> {
    use Op::*;
    let (v, n) = (0xFEDC_BA98_7654_3210, 0xFFFF_FFFE);
    let mut ops = vec![
        Translate(4, v),
        DataPa(v),
        FetchPa(v),
        Load(v, n),
        Store(v, n, !v),
        Fetch(v),
        Sys(n, 1, 2, 3, 4),
        Reg(n, v),
        Level(n),
        Mark(true),
        SetX(n, v),
        Census(v, !v),
        Windows,
        Flip(4, true, v),
        Flip(2, false, !v),
        LeafAsid,
        LeafOn(3),
        LeafUntag(2, v),
        LeafWalk(1, v),
        LeafBits(v),
        LeafPerm(7),
        LeafBank(n),
        LeafVector(1, 2, true),
        PokeLevel(n),
        PokePc(v),
        PokeSpsel(true),
        PokeGeneration(n),
        PokeCounters(v),
        TakeBroadcast,
    ];
    for e in exceptions() {
        ops.extend([Abort(e), LeafSyndrome(e, 1, 2, v)]);
    }
    ops
}

fn round_trip(line: &Line) {
    assert_eq!(decode(&encode(line)), Some(*line), "{line}");
    assert_eq!(Line::parse(&line.to_string()), Ok(vec![*line]), "{line}");
}

#[test]
fn every_operation_comes_back() {
    operations().into_iter().for_each(|op| round_trip(&Line::Op(op)));
}

#[test]
fn generated_traces_come_back() {
    for style in [Style::Full, Style::Strict, Style::Wild] {
        trace(7, 3000, style).iter().for_each(round_trip);
    }
}

#[test]
fn answers_come_back() {
    let v = 0xFEDC_BA98_7654_3210;
    for a in [
        Ans::Ok,
        Ans::Val(v),
        Ans::None,
        Ans::Leaf(v, 0x3F, 3, 7, 3, true, true),
        Ans::Pair(v, !v),
        Ans::Number(6),
        Ans::Number(9),
        Ans::Page(63, 15, 0x0E),
        Ans::Bit(v, 63),
        Ans::Undefined,
        Ans::Unimplemented,
        Ans::Fault(v, 0x17),
        Ans::Data(v, true, 0x10),
        Ans::Insn(v, 0x0F),
    ] {
        assert_eq!(decode_answer(&encode_answer(&a)), a);
    }
}

/// In text and in words counts are summed up.
#[test]
fn counts_are_summed_up() {
    let mut counts = Box::new([0; COUNTS]);
    let none = encode_answer(&Ans::Counts(counts.clone()));
    assert_eq!((none[0], none[1], none[3]), (11, 0, 0));
    (counts[5], counts[COUNTS - 1]) = (0x10000, 1);
    let some = encode_answer(&Ans::Counts(counts.clone()));
    assert_eq!((some[0], some[1]), (11, 2));
    assert_ne!(some[2], none[2]);
    let answer = Ans::Counts(counts);
    assert_eq!(answer.to_string(), format!("counts 2:{:016x}", some[2]));
    assert_eq!(answer.full(), "  status 05: 65536\n  flat: 1\n");
}

#[test]
fn states_come_back_as_words_and_in_the_rust() {
    let (mut core, mut ram) = (RustCore::new(), Ram::default());
    let mut copy = RustCore::new();
    for line in trace(8, 2000, Style::Wild) {
        feed(&line, &mut core, &mut ram);
        let state = core.state();
        let words = words_of(&state);
        assert_eq!(words.len(), WORDS);
        assert!(state_of(&words) == state, "{line}");
        copy.load(&state);
        assert!(copy.state() == state, "{line}");
    }
}

/// A line of a state has the sums, then each level's own pair.
#[test]
fn the_sums_wrap() {
    let mut state = RustCore::new().state();
    state.levels[0] = LevelCounters {
        hits: u64::MAX,
        walks: 5,
    };
    state.levels[3] = LevelCounters { hits: 2, walks: 0x10 };
    assert_eq!((state.hits(), state.walks()), (1, 0x15));
    let line = state.line(0);
    let shown = "h=1 w=15 l0=ffffffffffffffff:5 l1=0:0 l2=0:0 l3=2:10 fl=0 dr=0 ep=0 ";
    assert!(line.starts_with(shown), "{line}");
    assert_eq!(state.value("l3"), Some("2:10".into()));
    // pimu's two counters are the sums.
    let mut rust = RustCore::new();
    rust.load(&state);
    assert_eq!((rust.cpu.tlb.hits, rust.cpu.tlb.walks), (1, 0x15));
    assert!(rust.state() == state);
}

#[test]
fn what_is_no_line_is_refused() {
    for bad in [
        "tr 3 0",
        "tr 1",
        "ld 0 100000000",
        "l-walk 0 0",
        "abort",
        "census 0",
        "abort data 0 1",
        "nonsense",
        "x g 0",
        "flip 3 0 0",
        "flip 1 2 0",
        "flip 1 0",
        "bytes",
        "bytes 0",
        "bytes 123",
        "bytes 0g",
        "bytes +1",
        "bytes é0",
    ] {
        assert!(Line::parse(bad).is_err(), "{bad}");
    }
    assert_eq!(decode(&[1, 3, 0, 0, 0, 0, 0, 0]), None);
    assert_eq!(decode(&[15, 3, 0, 0, 0, 0, 0, 0]), None);
    assert_eq!(decode(&[15, 1, 2, 0, 0, 0, 0, 0]), None);
    assert_eq!(decode(&[99, 0, 0, 0, 0, 0, 0, 0]), None);
}
