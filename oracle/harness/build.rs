//! With the feature `rattle` or `walk`: link the static library that A72_LIB (folder) and A72_NAME (name) give.
use std::env;
use std::path::PathBuf;

fn main() {
    println!("cargo:rerun-if-changed=build.rs");
    println!("cargo:rerun-if-env-changed=A72_LIB");
    println!("cargo:rerun-if-env-changed=A72_NAME");
    let wanted = ["CARGO_FEATURE_RATTLE", "CARGO_FEATURE_WALK"];
    if wanted.iter().all(|f| env::var_os(f).is_none()) {
        return;
    }
    // Checked it is without the library, not linked.
    let (Ok(dir), Ok(name)) = (env::var("A72_LIB"), env::var("A72_NAME")) else {
        println!("cargo:warning=A72_LIB and A72_NAME are missing: the folder of the static library, and its name without lib and .a");
        return;
    };
    let file = PathBuf::from(&dir).join(format!("lib{name}.a"));
    println!("cargo:rerun-if-changed={}", file.display());
    if !file.exists() {
        println!(
            "cargo:warning={} is missing: `tools/build {name}` makes it, and A72_LIB names its folder",
            file.display()
        );
        return;
    }
    println!("cargo:rustc-link-search=native={dir}");
    println!("cargo:rustc-link-lib=static={name}");
}
