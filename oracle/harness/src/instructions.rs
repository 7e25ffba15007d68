//! Each system operation and register write also as the instruction that pimu itself executes (`Cpu::step_fetched`):
//! the harness calls the right functions, and where the scope's rule of a register write leaves pimu's own.
use crate::op::{Ans, Line, Op};
use crate::rust::{kept, RustCore};
use crate::{feed, Core, Ram, State};
use pimu::aarch64::{Exception, Step};
use std::collections::BTreeMap;

/// The instruction: SYS, or MSR from X7.
fn encoding(op: &Op) -> Option<u32> {
    match *op {
        Op::Sys(a, b, c, d, r) if a < 8 && b < 16 && c < 16 && d < 8 && r < 32 => {
            Some(0xD508_0000 | a << 16 | b << 12 | c << 8 | d << 5 | r)
        }
        Op::Reg(k, _) if kept(k) => Some(0xD500_0000 | (k & 0xFFFF) << 5 | 7),
        _ => None,
    }
}

/// Execute it on a copy; PC and X7 are put back. The RAM that it leaves has read what pimu read of eight bytes.
fn execute(core: &RustCore, ram: &Ram, op: &Op) -> Option<(Ans, State, Ram)> {
    let (mut c, mut m) = (core.clone(), ram.clone());
    m.reads = 0;
    let (pc, x7) = (c.cpu.pc, c.cpu.x[7]);
    if let Op::Reg(_, v) = *op {
        c.cpu.x[7] = v;
    }
    let word = encoding(op)?;
    let answer = match c.counting(|c| c.cpu.step_fetched(word, &mut m)) {
        Step::Retired => Ans::Ok,
        Step::Exception(Exception::Undefined) => Ans::Undefined,
        Step::Exception(Exception::DataAbort { addr, write, fsc }) => Ans::Data(addr, write, fsc),
        Step::Unimplemented(_) => Ans::Unimplemented,
        s => unreachable!("{s:?}"),
    };
    (c.cpu.pc, c.cpu.x[7]) = (pc, x7);
    Some((answer, c.state(), m))
}

/// The parts in which two states differ, by name.
fn parts(s: &State, t: &State) -> Vec<&'static str> {
    let rest = |s: &State| State {
        regs: [0; 34],
        flags: [0; 3],
        x: [0; 31],
        epoch: 0,
        hints: Vec::new(),
        fetch: None,
        entries: Vec::new(),
        ..s.clone()
    };
    let differing = [
        ("registers", (s.regs, s.x, s.flags) != (t.regs, t.x, t.flags)),
        ("epoch", s.epoch != t.epoch),
        ("hints", (&s.hints, s.fetch) != (&t.hints, t.fetch)),
        ("entries", s.entries != t.entries),
        ("the rest", rest(s) != rest(t)),
    ];
    differing
        .into_iter()
        .filter(|(_, differ)| *differ)
        .map(|(name, _)| name)
        .collect()
}

/// How often each outcome came, and where first.
pub type Outcomes = BTreeMap<String, (u64, String)>;

/// Compare along one trace; `name` says which.
pub fn compare(name: &str, lines: &[Line], seen: &mut Outcomes) {
    let (mut core, mut ram) = (RustCore::new(), Ram::default());
    for (n, line) in lines.iter().enumerate() {
        let pimu = match line {
            Line::Op(op) => execute(&core, &ram, op),
            _ => None,
        };
        let answer = feed(line, &mut core, &mut ram);
        let (Some((theirs, state, window)), Some(ours)) = (pimu, answer) else {
            continue;
        };
        // pimu has no window that could be refused.
        if ours == Ans::Number(2) {
            continue;
        }
        let mut differing = parts(&core.state(), &state);
        if window != ram {
            differing.push("RAM");
        }
        if window.reads != core.reads() {
            differing.push("descriptors read");
        }
        let kind = if matches!(line, Line::Op(Op::Sys(..))) {
            "system operation"
        } else {
            "register write"
        };
        let outcome = match (ours == theirs, differing.is_empty()) {
            (false, _) => format!("{kind}: answer {ours}, pimu's {theirs}"),
            (true, true) => format!("{kind}: same"),
            (true, false) => format!("{kind}: other {}", differing.join(", ")),
        };
        let first = || (0, format!("{name} line {}: {line}", n + 1));
        seen.entry(outcome).or_insert_with(first).0 += 1;
    }
}
