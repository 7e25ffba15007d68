//! Hold a core to recorded files.
use harness::cli::{finish, Args, NOTHING};
use harness::recorded::replay::replay;

const USAGE: &str = "replay [--model | --c | --each] FILE.rec..
  Replays recorded files on the Rust, in its domain (--model: on the model; --c: on the core behind the C boundary; --each:
  by its function for each operation). Status 1 where a file goes otherwise, or no answer is recorded.";

fn main() {
    let args = Args::new(USAGE, &["--model", "--c", "--each"], &[]);
    if args.words().is_empty() {
        args.fail("a file is missing");
    }
    let mut core = args.right_core();
    let (mut operations, mut wrong, mut left_out, mut cases, mut judged) = (0, 0, 0, 0, 0);
    for file in args.words() {
        let bytes = std::fs::read(file).unwrap_or_else(|e| args.fail(&format!("{file}: {e}")));
        match replay(&bytes, core.as_mut()) {
            Ok(done) => {
                operations += done.operations;
                left_out += done.left_out;
                cases += done.cases;
                judged += done.judged;
            }
            Err(e) => {
                println!("{file}: {e}");
                wrong += 1;
            }
        }
    }
    if left_out != 0 {
        println!("left out: {left_out} leaves, which the core has not");
    }
    if judged == 0 && wrong == 0 {
        println!("{operations} operations, none with a recorded answer: {NOTHING}");
        finish(false)
    }
    println!("{operations} operations and {cases} outside cases as recorded, {wrong} files otherwise");
    finish(wrong == 0)
}
