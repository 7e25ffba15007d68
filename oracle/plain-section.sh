#!/bin/sh
# The section of ../docs/BENCHMARKS.md on the core as plain Rust, from the table that `links.sh` wrote.
#   plain-section.sh TABLE
set -eu
cat <<'TEXT'
## The same text as plain Rust

The crate `bindings/rust`, by its methods, in the library's place: what rustc makes of the text that was proved, in the same release build as pimu's Rust (16 units, no LTO). Each method stands behind one call
that is not inlined, as pimu's function does, and makes its checks; an emulator that calls it pays no such call. The library's own times are those of the table above.
The bars: translations, loads, stores, fetches, TLBI and sample frames 1.0; lists of 64 windows and flipped bits 1.1; register writes, settings, abort entry and DC ZVA 1.2. A load whose second page faults has none: pimu judges no byte of the first page there (docs/DIFFERENCES.md, R19).
Settings give pimu's side nothing, and here a `Result`, which is asserted behind the same call.

    ./links.sh 80

builds both sides with `-x86-align-branch`, so that no jump, call or return lies over a boundary of 32 bytes and this processor's erratum ("The place of a function", below) decides nothing, and links the same objects sixteen times, with the functions in another order each time.
Times are the means of the sixteen least times, and a bar is held to the ratio of these means; `links` has the least and the greatest ratio of one link. A setting takes four or five cycles, and the order of the functions says which: a link by itself meets the bars of level and mark or misses them, and so did the one link that was measured before (1.25 and 2.00 of 1.2; docs/DECISIONS.md, D54).
The loops that call settings are the same instructions on both sides. Instructions are those of a build without these flags.
A user's build has none of these flags, so that places decide there; `FLAGS=' ' ./links.sh 80` measures it. In the mean of sixteen such links 61 of the 64 bars were met: a load of one byte by its hint took 1.06 of 1.0 (0.79 to 1.33 in a link), `fetch_pa` by its hint 1.03 (0.54 to 1.40), level 1.32 of 1.2 (1.00 to 1.75).

TEXT
sed '/^$/,$d' "$1"
echo
echo "$(tail -n 1 "$1")."
echo
echo "Four cores beside one, as plain Rust:"
echo
awk -f "$(dirname "$0")/four.awk" "$1"
