//! Links liba72abi.a of the folder $A72_LIB; or where `tools/build a72abi` puts it, or a release archive has it.
use std::env;
use std::path::PathBuf;

fn main() {
    println!("cargo:rerun-if-changed=build.rs");
    println!("cargo:rerun-if-env-changed=A72_LIB");
    let root = PathBuf::from(env!("CARGO_MANIFEST_DIR")).join("../..");
    let packed = root.join("lib");
    let made = || {
        if packed.exists() {
            packed
        } else {
            root.join("target/staticlib")
        }
    };
    let dir = env::var_os("A72_LIB").map_or_else(made, PathBuf::from);
    let file = dir.join("liba72abi.a");
    println!("cargo:rerun-if-changed={}", file.display());
    // Checked and documented it is without the library, not linked.
    if !file.exists() {
        let missing = file.display();
        println!(
            "cargo:warning={missing} is missing: `tools/build a72abi` makes it, and A72_LIB names its folder"
        );
        return;
    }
    println!("cargo:rustc-link-search=native={}", dir.display());
    println!("cargo:rustc-link-lib=static=a72abi");
}
