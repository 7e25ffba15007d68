//! Write a trace made from a seed.
use harness::cli::Args;
use std::io::Write;

const USAGE: &str = "generate SEED N [--cores] [--strict | --wild]
  A trace of about N operations on standard output. --strict: only the list, no leaves and no pokes;
  --wild: the core's state is also overwritten with odd values.
  --cores: of four cores.";

fn main() -> std::io::Result<()> {
    let args = Args::new(USAGE, &["--cores", "--strict", "--wild"], &[]);
    args.expect_words(2);
    let mut out = std::io::BufWriter::new(std::io::stdout().lock());
    for line in args.made(args.number(0), args.number(1)) {
        writeln!(out, "{line}")?;
    }
    out.flush()
}
