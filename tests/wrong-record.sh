#!/bin/sh
# A record with one word wrong is noticed. Wants target/bin/replay (tools/build replay). Its last line is 'wrong records: all noticed'.
set -eu
cd "$(dirname "$0")/.."
program=$PWD/target/bin/replay
[ -x "$program" ] || { echo "wrong-record.sh: target/bin/replay is missing: tools/build replay makes it"; exit 1; }
room=$(mktemp -d)
trap 'rm -rf "$room"' EXIT
cp crates/replay/data/*.rec "$room"

# One byte of a record changed at an offset: the program must say so, in its last line too, and end with status 1.
notice() {
    cp "crates/replay/data/$1" "$room/$1"
    old=$(od -An -tu1 -j "$2" -N 1 "$room/$1")
    printf "\\$(printf %o $((old ^ 1)))" | dd of="$room/$1" bs=1 seek="$2" conv=notrunc 2>/dev/null
    status=0
    (cd "$room" && "$program" $(cat "$OLDPWD/crates/replay/args")) >"$room/said" || status=$?
    said=$(diff "$room/said" crates/replay/stdout | sed -n 's/^< //p')
    if [ "$status" != 1 ] || ! echo "$said" | tail -n 1 | grep -q 'differences [1-9]'; then
        echo "$1, byte $2: not noticed"
        exit 1
    fi
    echo "$1, byte $2 ($3):" $(echo "$said" | sed -n 2p)
    cp "crates/replay/data/$1" "$room/$1"
}

# at FILE CODE [WORDS]: where the first line with this code, or with any below 60 for '-', begins. After a header of 8 words a line has 8, an operation 39, or so many.
code() { od -An -tu8 -j "$2" -N 8 "crates/replay/data/$1" | tr -d ' '; }
at() {
    line=$((8 * 8))
    while :; do
        c=$(code "$1" "$line")
        case $2 in "$c") break ;; -) [ "$c" -ge 60 ] || break ;; esac
        line=$((line + ($c < 60 ? 8 * ${3:-39} : 8 * 8)))
    done
    echo "$line"
}
first=$(at cases.rec -)
notice cases.rec $((first + 8 * 8)) "an answer"
notice cases.rec $((first + 8 * 34)) "the digest of the registers"
notice cases.rec $((first + 8 * 37)) "the digest of RAM"
first=$(at levels.rec -)
notice levels.rec $((first + 8 * 12)) "the hits of EL0"
notice levels.rec $((first + 8 * 15)) "the walks of EL1"
notice levels.rec $((first + 8 * 19)) "the walks of EL3"
notice census.rec $(($(at census.rec 13) + 8 * 10)) "the digest of a census's counts"
notice tlbi.rec $(($(wc -c <crates/replay/data/tlbi.rec) - 24)) "the last digest of hints"
notice reads.rec $(($(wc -c <crates/replay/data/reads.rec) - 8)) "the last number of descriptors read"
first=$(at cores.rec 64 43)
notice cores.rec $((first + 8)) "the core that is spoken to"
first=$((first + 8 * 8))
notice cores.rec $((first + 8 * 39)) "the digest of core 0"
notice cores.rec $((first + 8 * 42)) "the digest of core 3"
last=$(wc -c <crates/replay/data/cores.rec)
notice cores.rec $((last - 8 * 5)) "the last number of descriptors read, of four cores"
notice cores.rec $((last - 16)) "the last digest of core 2"
notice outside-perm.rec $(($(wc -c <crates/replay/data/outside-perm.rec) - 16)) "the last outside answer"
notice rules.rec 24 "the number of operations"
notice rules.rec 48 "the words of an operation's line"
notice cores.rec 48 "the words of an operation's line, of four cores"
echo "wrong records: all noticed"
