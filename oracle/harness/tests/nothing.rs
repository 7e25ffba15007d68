//! A program that tested nothing says so, and its status is 1.
use std::process::Command;

const NOTHING: &str = "NOTHING WAS TESTED";

/// The program's status and its last line.
fn run(program: &str, args: &[&str]) -> (Option<i32>, String) {
    let out = Command::new(program).args(args).output().unwrap();
    let text = String::from_utf8(out.stdout).unwrap();
    (out.status.code(), text.lines().last().unwrap_or("").into())
}

fn tests_nothing(program: &str, args: &[&str]) {
    let (status, last) = run(program, args);
    assert_eq!(status, Some(1), "{program} {args:?}: {last}");
    assert!(last.contains(NOTHING), "{program} {args:?}: {last}");
}

fn succeeds(program: &str, args: &[&str]) {
    let (status, last) = run(program, args);
    assert_eq!(status, Some(0), "{program} {args:?}: {last}");
}

/// A file for one test, by its name; tests run side by side.
fn file(name: &str, bytes: &[u8]) -> String {
    let path = std::env::temp_dir().join(format!("{}-{name}", std::process::id()));
    std::fs::write(&path, bytes).unwrap();
    path.to_str().unwrap().into()
}

#[test]
fn compare() {
    let program = env!("CARGO_BIN_EXE_compare");
    tests_nothing(program, &["--seeds", "5", "5", "100"]);
    tests_nothing(program, &["--seeds", "6", "5", "100"]);
    tests_nothing(program, &["--seeds", "5", "6", "100", "--jobs", "0"]);
    succeeds(program, &["--seeds", "5", "6", "100"]);
    tests_nothing(program, &["--cores", "--seeds", "5", "5", "100"]);
    succeeds(program, &["--cores", "--seeds", "5", "6", "100"]);
    let trace = file("comment.trace", b"# no operation\nfresh\nwindow 0 1000\n");
    tests_nothing(program, &[&trace]);
    std::fs::remove_file(trace).unwrap();
}

#[test]
fn faithful() {
    let program = env!("CARGO_BIN_EXE_faithful");
    tests_nothing(program, &["5", "5", "1000"]);
    tests_nothing(program, &["5", "6", "0"]);
    succeeds(program, &["5", "6", "3000"]);
    tests_nothing(program, &["5", "6", "0", "--cores"]);
    succeeds(program, &["5", "6", "3000", "--cores"]);
}

#[test]
fn grid() {
    tests_nothing(env!("CARGO_BIN_EXE_grid"), &["0", "--list"]);
    succeeds(env!("CARGO_BIN_EXE_grid"), &["1", "--list"]);
}

#[test]
fn instructions() {
    let program = env!("CARGO_BIN_EXE_instructions");
    tests_nothing(program, &["5", "5", "1000"]);
    succeeds(program, &["5", "6", "3000"]);
}

#[test]
fn expect() {
    let program = env!("CARGO_BIN_EXE_expect");
    let none = file("none.trace", b"fresh\nlevel 1\n");
    tests_nothing(program, &[&none]);
    let empty = file("empty.trace", b"fresh\nlevel 1 #= -- nothing is expected\n");
    assert_eq!(run(program, &[&empty]).0, Some(1));
    let one = file("one.trace", b"fresh\nlevel 1 #= ok\n");
    succeeds(program, &[&one]);
    [none, empty, one].into_iter().for_each(|f| std::fs::remove_file(f).unwrap());
}

#[test]
fn replay() {
    let program = env!("CARGO_BIN_EXE_replay");
    let record = |words: &[u64]| -> Vec<u8> { words.iter().flat_map(|w| w.to_le_bytes()).collect() };
    let magic = u64::from_le_bytes(*b"A72REC03");
    let none = file("none.rec", &record(&[magic, 8, 0, 0, 0, 0, 39, 0]));
    tests_nothing(program, &[&none]);
    // A level is set, and no answer recorded: code 9 as a short line.
    let unjudged = file(
        "unjudged.rec",
        &record(&[magic, 9, 1, 1, 0, 0, 39, 0, 9 + 128 | 1 << 16]),
    );
    tests_nothing(program, &[&unjudged]);
    [none, unjudged].into_iter().for_each(|f| std::fs::remove_file(f).unwrap());
}

#[test]
fn wrong_cores() {
    let (status, last) = run(env!("CARGO_BIN_EXE_wrong-cores"), &["1", "0"]);
    assert_eq!(status, Some(1), "{last}");
}
