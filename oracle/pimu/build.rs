//! Makes the crate's source in OUT_DIR: pimu's five files as published, each with three lines appended
//! (an empty one, a path, a child module), and the stubs of their neighbours beside them.
use std::path::{Path, PathBuf};
use std::{env, fs};

/// Published file, and the file of `access/` that becomes its child module.
const FILES: [(&str, &str); 5] = [
    ("mmu.rs", "mmu.rs"),
    ("cpu.rs", "cpu.rs"),
    ("sysreg.rs", "sysreg.rs"),
    ("exec.rs", "exec.rs"),
    ("mod.rs", "core.rs"),
];

const STUBS: [&str; 4] = ["fp.rs", "fpinsn.rs", "simd.rs", "predecode.rs"];

fn read(path: &Path) -> Vec<u8> {
    println!("cargo:rerun-if-changed={}", path.display());
    fs::read(path).unwrap_or_else(|e| panic!("{}: {e}", path.display()))
}

fn write(path: &Path, bytes: &[u8]) {
    fs::write(path, bytes).unwrap_or_else(|e| panic!("{}: {e}", path.display()));
}

/// The published bytes, then the child module. A child module sees its parent's private items.
fn with_child(published: &[u8], child: &Path) -> Vec<u8> {
    let lines = format!("\n#[path = {:?}]\npub mod access;\n", child.display().to_string());
    [published, lines.as_bytes()].concat()
}

fn main() {
    println!("cargo:rerun-if-changed=build.rs");
    let here = PathBuf::from(env::var_os("CARGO_MANIFEST_DIR").unwrap());
    let published = here.join("../../docs/src/src/aarch64");
    let out = PathBuf::from(env::var_os("OUT_DIR").unwrap());
    let dir = out.join("aarch64");
    fs::create_dir_all(&dir).unwrap();
    for (file, child) in FILES {
        let bytes = read(&published.join(file));
        let child = here.join("access").join(child);
        println!("cargo:rerun-if-changed={}", child.display());
        write(&dir.join(file), &with_child(&bytes, &child));
        let copy = fs::read(dir.join(file)).unwrap();
        assert!(copy.starts_with(&bytes), "{file} is not as published");
    }
    for file in STUBS {
        write(&dir.join(file), &read(&here.join("stubs").join(file)));
    }
    let root = format!(
        "#[path = {:?}]\npub mod aarch64;\n",
        dir.join("mod.rs").display().to_string()
    );
    write(&out.join("root.rs"), root.as_bytes());
}
