//! pimu's own core and this one, side by side on one short trace: each answer, and at the end all that both hold.
use a72::{Access, Core, Exception, Ram, Status, Stop, SystemOperation};
use harness::census::{COUNTS, FLAT, RIGHTS, STATUS};
use harness::ffi::{exception, state_of};
use harness::rust::RustCore;
use harness::{Ans, Core as _, Line, Op, feed};

/// The format is that of the oracle's traces: numbers hexadecimal, `#` starts a comment.
const TRACE: &str = "
    window 40000000 100000
    poke 40001000 40002003   # level 1: a table
    poke 40002000 40003003   # level 2: a table
    poke 40003008 40008403   # page 1
    poke 40003010 40009483   # page 2, read only
    reg c102 80000019        # TCR_EL1: 39 bits
    reg c100 40001000        # TTBR0_EL1
    reg c080 1               # SCTLR_EL1: stage 1 on
    level 1
    tr 1 1234                # a walk
    tr 2 1238                # the entry
    st 1ff8 8 8877665544332211
    ld 1ffc 8                # over both pages
    st 1ffc 8 0              # the second may not be written
    ld 3000 4                # not mapped
    ld 1000 3                # no size
    if 1ff8
    poke 40003008 4000a403   # page 1 moves
    tr 1 1234                # the cache holds the old one
    x 0 1
    sys 0 8 7 1 0            # TLBI VAE1
    tr 1 1234                # the new one
    x 0 1240
    sys 3 7 4 1 0            # DC ZVA
    sys 0 7 8 0 0            # AT S1E1R
    sys 4 8 7 0 1f           # TLBI ALLE2, not from EL1
    census 0 10              # how the first sixteen pages are mapped
    census ffffffffffffffff 2 # past 2^64
    reg 0 0                  # no register
    mark 1
    ld 1000 8                # judged as EL0's, counted at EL1
    mark 0
    level 0
    ld 1000 8                # counted at EL0
    abort data 1000 0 f
    level 4
";

/// This crate's answer in the harness's words.
fn answer(outcome: Result<Option<u64>, Stop>) -> Ans {
    match outcome {
        Ok(Some(v)) => Ans::Val(v),
        Ok(None) => Ans::Ok,
        Err(Stop::Refused(check)) => Ans::Number(check.number() as u8),
        Err(Stop::Undefined) => Ans::Undefined,
        Err(Stop::Unimplemented) => Ans::Unimplemented,
        Err(Stop::Fault(f)) => match f.exception() {
            Exception::InstructionAbort { address, status } => Ans::Insn(address, status.0),
            _ => Ans::Data(f.address, f.access == Access::Write, f.status.0),
        },
    }
}

fn translate(core: &mut Core, ram: &Ram, kind: u8, va: u64) -> Ans {
    let access = match kind {
        1 => Access::Read,
        2 => Access::Write,
        _ => Access::Fetch,
    };
    match core.translate(ram, va, access) {
        Err(Stop::Fault(f)) => Ans::Fault(f.address, f.status.0),
        other => answer(other.map(Some)),
    }
}

fn census(core: &Core, ram: &Ram, first: u64, pages: u64) -> Ans {
    match core.census(ram, first, pages) {
        Ok(census) => {
            let mut counts = Box::new([0; COUNTS]);
            counts[STATUS..STATUS + 64].copy_from_slice(&census.statuses);
            counts[RIGHTS..RIGHTS + 64].copy_from_slice(&census.rights);
            counts[FLAT] = census.flat;
            Ans::Counts(counts)
        }
        Err(stop) => answer(Err(stop)),
    }
}

/// The operation on this crate's core; `None` for one that the trace above does not have.
fn step(core: &mut Core, ram: &mut Ram, op: &Op) -> Option<Ans> {
    let done = |outcome: Result<(), Stop>| answer(outcome.map(|()| None));
    Some(match *op {
        Op::Translate(kind, va) => translate(core, ram, kind, va),
        Op::Load(va, size) => answer(core.load_bytes(ram, va, size.into()).map(Some)),
        Op::Store(va, size, v) => done(core.store_bytes(ram, va, size.into(), v)),
        Op::Fetch(va) => answer(core.fetch(ram, va).map(|i| Some(i.into()))),
        Op::Sys(op1, crn, crm, op2, rt) => {
            let [op1, crn, crm, op2, rt] = [op1, crn, crm, op2, rt].map(u64::from);
            done(core.system(ram, SystemOperation::new(op1, crn, crm, op2, rt)))
        }
        Op::Census(first, pages) => census(core, ram, first, pages),
        Op::Reg(key, v) => done(core.write_register(u64::from(key), v)),
        Op::Level(level) => done(core.set_level(u64::from(level))),
        Op::Mark(on) => done(core.set_unprivileged(on)),
        Op::SetX(number, v) => done(core.set_general(number.into(), v)),
        Op::Abort(e) => match exception(&e) {
            [5, address, write, status] => done(core.take(&Exception::DataAbort {
                address,
                write: write != 0,
                status: Status(status as u8),
            })),
            _ => return None,
        },
        _ => return None,
    })
}

fn main() {
    let lines = Line::parse_all(TRACE).expect("a trace");
    let (mut rust, mut rust_ram) = (RustCore::new(), harness::Ram::default());
    let mut core = Core::new();
    let mut window = harness::Ram::default();
    let mut equal = true;
    println!("{:32} {:24} a72", "operation", "pimu");
    for (_, line) in lines {
        let theirs = feed(&line, &mut rust, &mut rust_ram);
        let ours = match &line {
            Line::Op(op) => {
                let mut ram = Ram::new(window.base, &mut window.bytes);
                step(&mut core, &mut ram, op)
            }
            // Around the operations: the window, and what another agent writes to it.
            around => feed(around, &mut RustCore::new(), &mut window),
        };
        let (Some(theirs), Some(ours)) = (theirs, ours) else {
            continue;
        };
        equal &= theirs == ours;
        println!("{:32} {:24} {}", line.to_string(), theirs.to_string(), ours);
    }
    equal &= state_of(&core.words()[..]) == rust.state() && window == rust_ram;
    println!(
        "answers, states and RAM {}",
        if equal { "equal" } else { "DIFFER" }
    );
    std::process::exit(!equal as i32);
}
