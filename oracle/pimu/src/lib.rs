//! pimu's five AArch64 files as published (`build.rs` copies them), with stubs for their neighbours.
include!(concat!(env!("OUT_DIR"), "/root.rs"));
