//! Write or check the recorded answers.
use harness::cli::{finish, Args};
use harness::recorded::files::{all, folder_of, File};
use std::fs;
use std::path::Path;

const USAGE: &str = "record TRACES RECORDS [--check]
  Writes the generated traces to the folder TRACES, the recorded answers of every trace there to the folder RECORDS,
  and the coverage table to TRACES/README.md.
  --check: writes nothing; status 1 where a file is not what would be written.";

/// Whether its folder holds the file as it has to.
fn current(path: &Path, file: &File) -> bool {
    let same = fs::read(path).is_ok_and(|bytes| bytes == file.1);
    if !same {
        println!("{} is not what the program makes", file.0);
    }
    same
}

fn main() {
    let args = Args::new(USAGE, &["--check"], &[]);
    args.expect_words(2);
    let [dir, records] = [0, 1].map(|i| Path::new(&args.words()[i]));
    let path = |file: &File| folder_of(file, dir, records).join(&file.0);
    let (files, shown) = all(dir).unwrap_or_else(|e| args.fail(&format!("{}: {e}", dir.display())));
    let mut good = files.len();
    if args.flag("--check") {
        good = files.iter().filter(|f| current(&path(f), f)).count();
    } else {
        for file in &files {
            fs::write(path(file), &file.1).unwrap_or_else(|e| args.fail(&format!("{}: {e}", file.0)));
        }
    }
    let bytes: usize = files.iter().map(|(_, b)| b.len()).sum();
    println!(
        "{} operations, {bytes} bytes, {good} of {} files as made",
        shown.tally.operations,
        files.len()
    );
    finish(good == files.len())
}
