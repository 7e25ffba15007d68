//! Makes the crate's source in OUT_DIR: of pimu's files those that the oracle has, as published, but mmu.rs, which is
//! this folder's; and the oracle's stubs of their neighbours. Of the crate `mistaken` each text of mistakes.txt is both
//! there and changed, and `mistake(N)` chooses.
use std::path::{Path, PathBuf};
use std::{env, fs};

const PUBLISHED: [&str; 4] = ["cpu.rs", "sysreg.rs", "exec.rs", "mod.rs"];
const STUBS: [&str; 4] = ["fp.rs", "fpinsn.rs", "simd.rs", "predecode.rs"];
const OURS: [&str; 6] = [
    "mmu.rs",
    "mmu/access.rs",
    "mmu/tlb.rs",
    "mmu/shape.rs",
    "mmu/lend.rs",
    "mmu/record.rs",
];

fn read(path: &Path) -> String {
    println!("cargo:rerun-if-changed={}", path.display());
    fs::read_to_string(path).unwrap_or_else(|e| panic!("{}: {e}", path.display()))
}

/// A mistake: the file, the text that stands in it once, and what stands in its place.
struct Mistake<'a> {
    number: usize,
    file: &'a str,
    old: &'a str,
    new: &'a str,
}

/// Blocks of a line `== NAME: FILE`, the old text, `--`, the new text.
fn mistakes(text: &str) -> Vec<Mistake<'_>> {
    let blocks = text.split("\n== ").skip(1).enumerate();
    blocks
        .map(|(i, block)| {
            let (head, texts) = block.split_once('\n').unwrap();
            let (old, new) = texts.split_once("\n--\n").unwrap();
            Mistake {
                number: i + 1,
                file: head.rsplit_once(": ").unwrap().1,
                old: old.trim(),
                new: new.trim(),
            }
        })
        .collect()
}

/// The file's text with each of its mistakes beside what it replaces.
fn with_mistakes(mut text: String, file: &str, mistakes: &[Mistake]) -> String {
    for m in mistakes.iter().filter(|m| m.file == file) {
        assert_eq!(text.matches(m.old).count(), 1, "mistake {}: {}", m.number, m.old);
        // A statement stays one, an expression gets brackets. What stood there comes last, for another mistake of it.
        let (old, new) = (m.old, m.new);
        let both = match old.ends_with([';', '}']) {
            true => format!("if crate::mistake({}) {{ {new} }} else {{ {old} }}", m.number),
            false => format!("(if crate::mistake({}) {{ {new} }} else {{ {old} }})", m.number),
        };
        text = text.replace(old, &both);
    }
    text
}

fn main() {
    println!("cargo:rerun-if-changed=../proved/build.rs");
    let here = PathBuf::from(env::var_os("CARGO_MANIFEST_DIR").unwrap()).join("..");
    let oracle = here.join("../../oracle/pimu");
    let published = here.join("../../docs/src/src/aarch64");
    let dir = PathBuf::from(env::var_os("OUT_DIR").unwrap()).join("aarch64");
    fs::create_dir_all(dir.join("mmu")).unwrap();
    for file in PUBLISHED {
        let bytes = read(&published.join(file));
        fs::write(dir.join(file), &bytes).unwrap();
        assert!(
            fs::read(dir.join(file)).unwrap() == bytes.as_bytes(),
            "{file} is not as published"
        );
    }
    for file in STUBS {
        fs::write(dir.join(file), read(&oracle.join("stubs").join(file))).unwrap();
    }
    let list = read(&here.join("mistakes.txt"));
    let made = match env::var("CARGO_PKG_NAME").as_deref() {
        Ok("mistaken") => mistakes(&list),
        _ => Vec::new(),
    };
    for file in OURS {
        fs::write(dir.join(file), with_mistakes(read(&here.join(file)), file, &made)).unwrap();
    }
    let root = format!(
        "#[path = {:?}]\npub mod aarch64;\n",
        dir.join("mod.rs").display().to_string()
    );
    fs::write(dir.join("../root.rs"), root).unwrap();
}
