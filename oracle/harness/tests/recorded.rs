//! The recorded traces: their expectations on each core, and that the files are what the program makes.
use harness::cluster::boundary::CFour;
use harness::cluster::plain::PlainFour;
use harness::cluster::{Cluster, Four};
use harness::domain::Reference;
use harness::expect::hold;
use harness::model::DocFour;
use harness::recorded::{files, replay};
use harness::rust::RustCore;
use harness::Op;
use std::fs;
use std::path::PathBuf;

fn folder() -> PathBuf {
    PathBuf::from(env!("CARGO_MANIFEST_DIR")).join("../../recorded")
}

fn records() -> PathBuf {
    PathBuf::from(env!("CARGO_MANIFEST_DIR")).join("../../crates/replay/data")
}

fn cores() -> [Box<dyn Cluster>; 4] {
    [
        Box::new(Four::<Reference>::default()),
        Box::new(DocFour::default()),
        Box::new(CFour::new()),
        Box::new(PlainFour::default()),
    ]
}

fn held(name: &str, expectations: usize) {
    let text = fs::read_to_string(folder().join(name)).unwrap();
    for mut core in cores() {
        let outcome = hold(&text, core.as_mut()).unwrap();
        assert_eq!(outcome.wrong, Vec::<String>::new(), "{name}");
        assert_eq!(outcome.expectations + outcome.left_out, expectations, "{name}");
        let leaves = core.has(&Op::LeafAsid);
        assert_eq!(outcome.left_out == 0, leaves || name != "leaves.trace", "{name}");
    }
}

#[test]
fn expectations_hold() {
    held("cases.trace", 14);
    held("rules.trace", 110);
    held("leaves.trace", 81);
    held("pokes.trace", 37);
    held("census.trace", 121);
    held("flat.trace", 67);
    held("crossing.trace", 78);
    held("levels.trace", 94);
    held("reads.trace", 175);
    held("windows.trace", 115);
    held("flips.trace", 106);
    held("cores.trace", 114);
}

#[test]
fn files_are_current() {
    let (files, _) = files::all(&folder()).unwrap();
    for file in files {
        let path = files::folder_of(&file, &folder(), &records()).join(&file.0);
        assert!(fs::read(path).unwrap() == file.1, "{}: run record", file.0);
    }
}

#[test]
fn each_core_replays_them() {
    let mut operations = 0;
    for entry in fs::read_dir(records()).unwrap() {
        let path = entry.unwrap().path();
        if path.extension().is_some_and(|e| e == "rec") {
            let bytes = fs::read(&path).unwrap();
            for mut core in cores() {
                operations += replay::replay(&bytes, core.as_mut()).unwrap().operations;
            }
        }
    }
    assert!(operations > 4 * 4000);
}

#[test]
fn a_changed_file_is_noticed() {
    let mut bytes = fs::read(records().join("cases.rec")).unwrap();
    let last = bytes.len() - 1;
    bytes[last] ^= 1;
    assert!(replay::replay(&bytes, &mut Four::<RustCore>::default()).is_err());
    bytes.truncate(last);
    assert!(replay::replay(&bytes, &mut Four::<RustCore>::default()).is_err());
}

#[test]
fn a_wrong_expectation_is_noticed() {
    let outcome = hold(
        "fresh\nlevel 1 #= ok; el=2\nlevel 4 #= ok\n",
        &mut RustCore::new(),
    )
    .unwrap();
    assert_eq!(outcome.expectations, 2);
    assert_eq!(outcome.wrong.len(), 2);
}
