#!/bin/sh
# Instructions a call of each case of `bench`, on the Rust and on the library: callgrind counts two runs of different
# length (a census walks 65,536 pages a call, a list of windows up to 1,024, a flipped bit 65: few), and their difference is divided by the calls between them. Writes lines `NUMBER RUST LIBRARY` to the file
# given, which `bench time --counts FILE` takes. SIDE=plain counts the core as plain Rust in the library's place.
#   ir.sh BENCH FILE [NUMBER..]
set -eu
bench=$1
file=$2
shift 2
command -v valgrind >/dev/null || { echo "ir.sh: valgrind is missing" >&2; exit 2; }
work=$(mktemp -d)
trap 'rm -r "$work"' EXIT

# Instructions of the whole program with this many calls of a case on a side.
whole() {
    valgrind --tool=callgrind --callgrind-out-file="$work/out" "$bench" one "$1" "$2" "$3" >/dev/null 2>"$work/err" \
        || { cat "$work/err" >&2; exit 2; }
    sed -n 's/^\(summary\|totals\): \([0-9]*\).*/\2/p' "$work/out" | head -n 1
}

# Instructions a call.
each() {
    case $3 in
        census*) few=1 many=3 ;;
        windows*) few=2 many=12 ;;
        flip*) few=20 many=120 ;;
        *) few=200 many=1200 ;;
    esac
    a=$(whole "$1" "$2" $few)
    b=$(whole "$1" "$2" $many)
    awk -v a="$a" -v b="$b" -v n=$((many - few)) 'BEGIN { printf "%.1f", (b - a) / n }'
}

"$bench" list >"$work/cases"
[ $# -gt 0 ] || set -- $(sed 's/ .*//' "$work/cases")
: >"$file"
for number; do
    name=$(sed -n "s/^$number //p" "$work/cases")
    echo "$number $(each "$number" rust "$name") $(each "$number" "${SIDE:-ours}" "$name")" | tee -a "$file"
done
