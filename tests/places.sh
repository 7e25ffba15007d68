#!/bin/sh
# The C interface is one wherever it is written: the places of a saved core's words, the memory of a core and of a cluster, the numbers that the functions give, the counts of
# a census, the most windows of a list and their most pages, the codes of the operations, the fields of an answer, the keys of the registers, the system operations, and each function's parameters. Compares the library (crates/), include/a72.h, bindings/rust/src and bindings/rust-archive/src, line by line;
# of keys and operations also tests/names.txt, which tests/tool.sh holds the tool to. Wants nothing.
# Its last line is 'N lines are one in all tables'; where two differ it names both and the place, and ends with 1.
set -eu
cd "$(dirname "$0")/.."
work=$(mktemp -d)
trap 'rm -rf "$work"' EXIT
header=include/a72.h
lines=0

# one KIND TABLE TABLE2: line by line, the two in $work; the first is the one that is meant to be right.
one() {
    awk -v kind="$1" -v a="$2" -v b="$3" '
        NR == FNR { of[NR] = $0; n = NR; next }
        FNR > n { print kind " " $1 ": only in " b; wrong = 1; next }
        $0 != of[FNR] {
            split(of[FNR], want)
            print kind " " want[1] ": " a " has \"" of[FNR] "\", " b " has \"" $0 "\""
            wrong = 1
            exit
        }
        { same++ }
        END {
            if (!wrong && same < n) { split(of[same + 1], want); print kind " " want[1] ": not in " b; wrong = 1 }
            if (!wrong && n == 0) { print kind ": " a " has none"; wrong = 1 }
            exit wrong
        }' "$work/$2" "$work/$3" || return 1
    lines=$((lines + $(wc -l <"$work/$2")))
}
table() { mkdir -p "$work/$(dirname "$1")" && cat >"$work/$1"; }

# Places: NAME NUMBER.
# shellcheck disable=SC2016 # awk's own dollars
constants='/^pub const [A-Z0-9_]+: (usize|u64) = [0-9]+;$/ { gsub(/[:;]/, ""); print $3, $6 }'
awk "$constants" crates/saved/src/place.rt | table crates/saved/src/place.rt
awk "$constants" bindings/rust/src/place.rs | table bindings/rust/src/place.rs
awk '/^[A-Z0-9-]+ = [0-9]+$/ { gsub("-", "_", $1); print $1, $3 }' crates/saved/specs/Places.antt | table crates/saved/specs/Places.antt
awk '/^#define A72_(WORDS|PLACE_[A-Z0-9_]+) [0-9]+/ { sub(/^A72_(PLACE_)?/, "", $2); print $2, $3 }' $header | table $header
for other in crates/saved/specs/Places.antt $header bindings/rust/src/place.rs; do one place crates/saved/src/place.rt "$other"; done

# A table with one number changed is noticed, and the place is named.
sed 's/^LEVEL .*/LEVEL 0/' "$work/bindings/rust/src/place.rs" | table wrong
said=$(one place crates/saved/src/place.rt wrong) && { echo "places.sh: a changed number is not noticed"; exit 1; }
case $said in 'place LEVEL: '*) ;; *) echo "places.sh: of a changed number it says: $said"; exit 1 ;; esac

# A place is after the one before it, and before the end.
awk '$1 == "WORDS" { end = $2; next }
    $2 <= last && NR > 2 || $2 >= end { print "place " $1 ": " $2 " is not between the one before it and " end; exit 1 }
    { last = $2 }' "$work/crates/saved/src/place.rt"

# The memory of a core, and of a cluster: NAME NUMBER. The library proves its parts: the handle, what it is of, and its alignment.
cat crates/core_static/src/*.rt crates/cluster_static/src/*.rt | sed -n 's/^const _: () = prove!(\(.*\)_of::<\(.*\)>() == \([0-9]*\));$/\1 \2 \3/p' | awk '
    { of[$1 " " $2] = $3 }
    END {
        if (of["size Core"] && of["size Handle"]) print "CORE_SIZE", of["size Core"] + of["size Handle"]
        print "CORE_ALIGN", of["align Core"]
        print "HANDLE_SIZE", of["size Handle"]
        if (of["size ClusterHandle"] == of["size Handle"]) print "CLUSTER_SIZE", of["size Cluster"] + of["size Handle"]
        print "CLUSTER_ALIGN", of["align Cluster"]
    }' | table memory/all
awk '/^#define A72_(CORE_SIZE|CORE_ALIGN|HANDLE_SIZE|CLUSTER_SIZE|CLUSTER_ALIGN) [0-9]+$/ { sub("A72_", "", $2); print $2, $3 }' $header | table memory/a72.h
awk "$constants" bindings/rust-archive/src/held.rs bindings/rust-archive/src/held_cluster.rs | table memory/held.rs
for other in memory/a72.h memory/held.rs; do one memory memory/all "$other"; done

# Numbers that the functions give: those of bindings/rust/src/number.rs, and of the checks of a call by their order in answer.rs.
awk "$constants" bindings/rust/src/number.rs | table bindings/rust/src/number.rs
awk '/^#define A72_(DONE|CHECK_LIST|PAGE_FAULTS|LAST_CHECK|NAMES_NOTHING|UNDEFINED|UNIMPLEMENTED|FAULT) / { sub("A72_", "", $2); print $2, $3 }' $header | table $header
one number bindings/rust/src/number.rs $header
awk '/^pub enum Check / { on = 1 } on && /^    [A-Z][a-z]+( = 1)?,$/ { sub(",", "", $1); print "CHECK_" toupper($1), ++n } /^}/ { on = 0 }' \
    bindings/rust/src/answer.rs | table bindings/rust/src/answer.rs
awk '/^#define A72_CHECK_/ && $2 != "A72_CHECK_LIST" { sub("A72_", "", $2); print $2, $3 }' $header | table $header
one number bindings/rust/src/answer.rs $header

# The counts of a census: NAME NUMBER.
awk "$constants" bindings/rust/src/count.rs | table bindings/rust/src/count.rs
awk '/^#define A72_(COUNTS|COUNT_[A-Z]+|MOST_PAGES) [0-9]+/ { sub(/^A72_(COUNT_)?/, "", $2); print $2, $3 }' $header | table $header
one count bindings/rust/src/count.rs $header
counts=$(sed -n 's/^COUNTS //p' "$work/$header")

# A list of windows: NAME NUMBER.
awk "$constants" crates/windows/src/list.rt | sed 's/^MOST_PAGES/MOST_WINDOW_PAGES/' | table crates/windows/src/list.rt
awk '/^#define A72_MOST_WINDOW/ { sub("A72_", "", $2); print $2, $3 }' $header | table $header
one list crates/windows/src/list.rt $header

# The codes of the operations: NAME NUMBER, by the call that a code is of, or by the function that makes it.
awk '/^pub fn call_of/ { on = 1 } /^}/ { on = 0 }
    on && /^        [0-9]+ => / { code = $1 }
    on && code && !/ let / && match($0, /[a-z]+_of\(|[^d]Call::[A-Za-z]+/) {
        name = substr($0, RSTART, RLENGTH)
        gsub(/.*::|_of\(/, "", name)
        if (match(name, /[a-z][A-Z]/)) name = substr(name, 1, RSTART) "_" substr(name, RSTART + 1)
        print toupper(name), code
        code = 0
    }' crates/call_words/src/op.rt | table crates/call_words/src/op.rt
awk '/^#define A72_OP_/ { sub("A72_OP_", "", $2); print $2, $3 }' $header | table op/a72.h
one operation crates/call_words/src/op.rt op/a72.h

# The fields of an answer, in their order: NAME TYPE.
awk '/^pub struct Report / { on = 1; next } /^}/ { on = 0 } on && /^    pub / { gsub(/[:,]/, ""); print $2, $3 }' crates/call_words/src/reply.rt |
    table crates/call_words/src/reply.rt
awk '/^pub struct Answer / { on = 1; next } /^}/ { on = 0 } on && /^    pub / { gsub(/[:,]/, ""); print $2, $3 }' bindings/rust-archive/src/library.rs |
    table answer/library.rs
awk '/^typedef struct a72_answer / { on = 1; next } /^}/ { on = 0 } on { sub(/_t$/, "", $1); sub("uint", "u", $1); sub(";", "", $2); print $2, $1 }' $header |
    table answer/a72.h
for other in answer/a72.h answer/library.rs; do one answer crates/call_words/src/reply.rt "$other"; done

# Keys of registers: NAME OP0 OP1 CRN CRM OP2.
awk '/^    [A-Z0-9_]+ [0-9]+ [0-9]+ [0-9]+ [0-9]+, place::/ { sub(",", "", $5); print $1, 3, $2, $3, $4, $5 }' bindings/rust/src/registers.rs |
    table bindings/rust/src/registers.rs
sed -n 's/^#define A72_\([A-Z0-9_]*\) A72_KEY(\(.*\))$/\1 \2/p' $header | tr -d , | table $header
one key bindings/rust/src/registers.rs $header

# The names that the tool reads, by their lines in numbers: what it takes for a key or an operation by name. Of the lines that show other spellings none.
# shellcheck disable=SC2016
hex='function hex(s, n, i) { for (i = 1; i <= length(s); i++) n = 16 * n + index("0123456789abcdef", substr(s, i, 1)) - 1; return n }
    function bits(v, low, n) { return int(v / 2 ^ low) % 2 ^ n }'
awk "$hex"' /^reg [A-Z0-9_]+ 0 = reg [0-9a-f]+ 0$/ { k = hex($6); print $2, bits(k, 14, 2), bits(k, 11, 3), bits(k, 7, 4), bits(k, 3, 4), bits(k, 0, 3) }' \
    tests/names.txt | sort | table tests/names.txt/key
sort "$work/bindings/rust/src/registers.rs" | table key/sorted
one key key/sorted tests/names.txt/key

# System operations: NAME OP1 CRN CRM OP2.
sed -n 's/^    [A-Za-z0-9_]*, "\([A-Z]*\) \([A-Z0-9]*\)": \([0-9 ]*\);$/\1_\2 \3/p' bindings/rust/src/system_operation.rs |
    table bindings/rust/src/system_operation.rs
sed -n 's/^#define A72_\([A-Z]*_[A-Z0-9]*\) \([0-9]*, [0-9]*, [0-9]*, [0-9]*\)$/\1 \2/p' $header | tr -d , | table $header
one operation bindings/rust/src/system_operation.rs $header
awk "$hex"' /^(at|dc|ic|tlbi) [a-z0-9]+ (x[0-9]+ |xzr )?= sys / { n = $3 == "=" ? 5 : 6; print toupper($1 "_" $2), hex($n), hex($(n + 1)), hex($(n + 2)), hex($(n + 3)) }' \
    tests/names.txt | sort | table tests/names.txt/operation
sort "$work/bindings/rust/src/system_operation.rs" | table operation/sorted
one operation operation/sorted tests/names.txt/operation

# Functions, sorted: NAME, then each parameter as a C type without its name; `-` where nothing is given back.
awk -f tools/functions.awk crates/core_static/src/*.rt crates/cluster_static/src/*.rt | sort | table crates/exports/all
sed "s/A72_COUNTS]/$counts]/" $header | awk -f tools/functions.awk | sort | table $header
awk -f tools/functions.awk bindings/rust-archive/src/library.rs | sort | table bindings/rust-archive/src/library.rs
for other in $header bindings/rust-archive/src/library.rs; do one function crates/exports/all "$other"; done

echo "$lines lines are one in all tables"
