//! Replay a trace on one core and write its answers.
use harness::cli::Args;
use harness::cluster::place;
use harness::{feed, Line, Ram};
use std::io::Write;

const USAGE: &str = "run TRACE [--full] [--right | --model | --c | --each]
  A line for each operation: its line number, of four cores the one that it went to, the operation, the answer, the descriptors that it read (rd), the state
  after it. --full: the whole state too, and every count of a census that is not 0. On the Rust; --right: on the Rust
  in its domain and on what stands in its place outside it; --model: on the model; --c: on the core behind the C
  boundary (--each: by its function for each operation).";

/// Whether a line may change RAM: its digest is the dear part.
fn moves_ram(line: &Line) -> bool {
    match line {
        Line::Op(op) => op.may_write_ram(),
        Line::Bytes(_) => false,
        _ => true,
    }
}

fn main() -> std::io::Result<()> {
    let args = Args::new(USAGE, &["--full", "--right", "--model", "--c", "--each"], &[]);
    args.expect_words(1);
    let mut core = if args.flag("--right") {
        args.right_core()
    } else {
        args.one_core()
    };
    let mut ram = Ram::default();
    let mut digest = ram.digest();
    let mut out = std::io::BufWriter::new(std::io::stdout().lock());
    for (n, line) in args.trace(&args.words()[0]) {
        let answer = feed(&line, core.as_mut(), &mut ram);
        if moves_ram(&line) {
            digest = ram.digest();
        }
        let named = match core.is_several() {
            true => format!("core {:x}: ", core.number()),
            false => String::new(),
        };
        let Some(answer) = answer else {
            if let Line::Op(op) = line {
                writeln!(out, "{n} {named}{op} => left out, the core has it not")?;
            }
            continue;
        };
        let reads = match line {
            Line::Op(op) if op.reports() => format!(" rd={:x}", core.reads()),
            _ => String::new(),
        };
        if place(core.number()).is_none() {
            writeln!(out, "{n} {named}{line} => {answer}{reads}")?;
            continue;
        }
        let state = core.state();
        writeln!(
            out,
            "{n} {named}{line} => {answer}{reads} | {}",
            state.line(digest)
        )?;
        if args.flag("--full") {
            write!(out, "{}{}", answer.full(), state.full())?;
        }
    }
    out.flush()
}
