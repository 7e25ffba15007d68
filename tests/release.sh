#!/bin/sh
# The release archive as an adopter has it: unpacked in a folder of its own, with no kit in PATH, cargo's tests and documentation, the C examples and the sums.
# Wants cargo and a C compiler, and what tools/release wants.
set -eu
cd "$(dirname "$0")/.."
packed=$(tools/release | tail -n 1)
work=$(mktemp -d)
trap 'rm -rf "$work"' EXIT
tar -C "$work" -xzf "$packed"
cd "$work"/a72-*
sha256sum --quiet -c SHA256SUMS

# PATH without the kit: the folders of cargo, rustc and the C compiler alone, and the system's.
where() { dirname "$(command -v "$1")"; }
PATH=$(where cargo):$(where rustc):$(where "${CC:-cc}"):/usr/bin:/bin
export PATH CARGO_TARGET_DIR="$work/target"
unset A72_LIB
! command -v rt >/dev/null || { echo "release.sh: rt is in PATH beside cargo or the C compiler"; exit 1; }

(cd bindings/rust && cargo test --offline && RUSTDOCFLAGS='-D warnings' cargo doc --offline --no-deps) >"$work/cargo" 2>&1 || { cat "$work/cargo"; exit 1; }
(cd bindings/rust-archive && cargo test --offline && RUSTDOCFLAGS='-D warnings' cargo doc --offline --no-deps) >"$work/archive" 2>&1 || { cat "$work/archive"; exit 1; }
# serde itself is not packed: cargo reads what the crate over it states.
(cd bindings/rust-serde && cargo metadata --no-deps --offline --format-version 1) >"$work/serde" 2>&1 || { cat "$work/serde"; exit 1; }
grep -q '"name":"a72-serde"' "$work/serde" || { echo "release.sh: cargo does not read bindings/rust-serde"; exit 1; }
tests=$(cat "$work/cargo" "$work/archive" | awk '/^test result/ { p += $4 } END { print p + 0 }')
[ "$tests" -gt 0 ] || { echo "release.sh: cargo tested nothing"; exit 1; }
# What the pages of the archive name is in it: the format of traces, and the tool's samples.
for line in '^# Traces$' '^| `fresh` |' '^| `abort E` |'; do
    grep -q "$line" docs/TRACES.md || { echo "release.sh: docs/TRACES.md has no line $line"; exit 1; }
done
for file in $(grep -o 'docs/TRACES\.md\|tests/[a-z]*\.trace' docs/TOOL.md | sort -u); do
    [ -s "$file" ] || { echo "release.sh: docs/TOOL.md names $file, which is not packed"; exit 1; }
done
bin/a72 run tests/page.trace --short >"$work/ran"
[ -s "$work/ran" ] || { echo "release.sh: bin/a72 carries out nothing"; exit 1; }
examples=0
for source in bindings/c/*.c; do
    name=$(basename "$source" .c)
    "${CC:-cc}" -Iinclude "$source" lib/liba72abi.a -o "$work/$name"
    "$work/$name" >"$work/$name.out"
    diff "bindings/c/$name.out" "$work/$name.out"
    examples=$((examples + 1))
done
tools/install "$work/prefix" >/dev/null
cmp lib/liba72abi.a "$work/prefix/lib/liba72abi.a"
# Without the library the crate over it is checked and documented, and says what is missing.
rm -r lib
(cd bindings/rust-archive && touch build.rs && cargo check --offline && cargo doc --offline --no-deps) >"$work/check" 2>&1 || { cat "$work/check"; exit 1; }
grep -q 'liba72abi.a is missing' "$work/check" || { echo "release.sh: nothing says that the library is missing"; cat "$work/check"; exit 1; }
echo "$tests tests and $examples examples in C pass from $(basename "$packed") alone"
