#!/bin/sh
# Times the core as plain Rust beside pimu's Rust in LINKS programs, each of the same objects with its functions in another order, and prints a table of the
# means. Both sides are built so that no jump, call or return lies over a boundary of 32 bytes. FLAGS are other flags for rustc (one space: none, as in a user's build).
#   links.sh RUNS [--only TEXT] [--counts FILE]      LINKS=16
set -eu
runs=$1
shift
work=$(mktemp -d)
trap 'rm -r "$work"' EXIT
[ -n "${FLAGS-}" ] || FLAGS='-C llvm-args=-x86-align-branch-boundary=32 -C llvm-args=-x86-align-branch=fused+jcc+jmp+call+ret+indirect'
export RUSTFLAGS="$FLAGS"

for link in $(seq "${LINKS:-16}"); do
    # The linker is rustc's own on x86-64 Linux, lld.
    (cd "$(dirname "$0")" && cargo rustc --offline --release --quiet -j1 -p harness --bin bench --target-dir target/placed -- -C "link-arg=-Wl,--shuffle-sections=*=$link")
    "$(dirname "$0")/target/placed/release/bench" time "$runs" --plain "$@" >"$work/$link"
done
awk -f "$(dirname "$0")/means.awk" "$work"/*
