//! Hold traces to the expectations written in them.
use harness::cli::{finish, Args, NOTHING};
use harness::expect::hold;

const USAGE: &str = "expect [--model | --c | --each | --plain] TRACE..
  Runs each trace on the Rust, in its domain (--model: on the model; --c: on the core behind the C boundary; --each:
  by its function for each operation; --plain: on the core as plain Rust) and holds each operation
  to what stands after '#=' on its line. Status 1 where one is wrong, or there is none.";

fn main() {
    let args = Args::new(USAGE, &["--model", "--c", "--each", "--plain"], &[]);
    if args.words().is_empty() {
        args.fail("a trace is missing");
    }
    let mut core = args.right_core();
    let (mut expectations, mut wrong, mut left_out) = (0, 0, 0);
    for file in args.words() {
        let outcome = hold(&args.text(file), core.as_mut());
        let outcome = outcome.unwrap_or_else(|e| args.fail(&format!("{file}: {e}")));
        outcome.wrong.iter().for_each(|w| println!("{file}: {w}"));
        expectations += outcome.expectations;
        wrong += outcome.wrong.len();
        left_out += outcome.left_out;
    }
    if left_out != 0 {
        println!("left out: {left_out} expectations of leaves, which the core has not");
    }
    if expectations == 0 {
        println!("0 expectations: {NOTHING}");
        finish(false)
    }
    println!("{expectations} expectations, {wrong} wrong");
    finish(wrong == 0)
}
