#!/bin/sh
# `a72 ranges` beside `a72 census`: with each rights both have as many pages. Then a range over many pages, a map that is too long, and its messages.
# Wants target/bin/a72 (tools/build a72). Its last line is 'N as expected, M otherwise'.
set -u
cd "$(dirname "$0")/.." || exit 1
tool=./a72
[ -x target/bin/a72 ] || { echo "ranges.sh: target/bin/a72 is missing: ./run or tools/build a72 makes it"; exit 1; }
work=$(mktemp -d) || exit 1
trap 'rm -rf "$work"' EXIT
good=0
bad=0
pass() { good=$((good + 1)); }
fail() { bad=$((bad + 1)); echo "differs: $1"; }

# by_rights: the pages of each rights, by the rows of `a72 ranges` or of `a72 census`.
by_rights() {
    awk '
    /^  [0-9a-f]+-[0-9a-f]+ / {
        pages = $4 == "GiB" ? $3 * 262144 : $4 == "MiB" ? $3 * 256 : $3 / 4
        match($0, /EL[0-3] .*  level/)
        sum[substr($0, RSTART, RLENGTH - 7)] += pages
    }
    /   permissions / {
        match($0, /EL[0-3] .*   permissions/)
        sum[substr($0, RSTART, RLENGTH - 14)] += $(NF - 1)
    }
    END { for (rights in sum) print rights ":", sum[rights] }' | sort
}

# agrees TRACE FIRST LAST PAGES LEVEL
agrees() {
    "$tool" ranges "$1" "$2" "$3" "$5" >"$work/ranges" 2>"$work/err"
    by_rights <"$work/ranges" >"$work/ours"
    "$tool" census "$1" "$2" "$4" "$5" | by_rights >"$work/counted"
    if [ ! -s "$work/err" ] && cmp -s "$work/ours" "$work/counted"; then pass; else fail "ranges $1 $2 $3 $5" && diff "$work/ours" "$work/counted"; fi
}

for trace in tests/instrument.trace tests/page.trace tests/regimes.trace; do
    for level in 0 1 2 3; do
        agrees "$trace" 0 fffffff 10000 "$level"
        agrees "$trace" 7ff0000 100ff123 8110 "$level"
        agrees "$trace" 40000000 4fffffff 10000 "$level"
        agrees "$trace" 80000000 8fffffff 10000 "$level"
        agrees "$trace" ffffff8000000000 ffffff800fffffff 10000 "$level"
        agrees "$trace" ffffffffff000000 ffffffffffffffff 1000 "$level"
    done
done
[ -s "$work/ranges" ] && pass || fail 'something is shown'

# says LINE TRACE ARGUMENTS..: a line of the ranges is LINE.
says() {
    line=$1
    shift
    "$tool" ranges "$@" >"$work/out" 2>"$work/err"
    if [ ! -s "$work/err" ] && grep -qxF -- "$line" "$work/out"; then pass; else fail "ranges $*: no line '$line'" && cat "$work/out"; fi
}

# A table of pages that follow one another: one range, over the border of two tables; and with one that goes elsewhere, three.
{
    echo 'window 40000000 10000'
    echo 'poke 40001000 40002003'
    echo 'poke 40002000 40003003'
    echo 'poke 40002008 40004003'
    for i in $(seq 0 1023); do printf 'poke %x %x\n' $((0x40003000 + i * 8)) $((0x6000000080000703 + i * 0x1000)); done
    printf 'reg c102 80800019\nreg c100 40001000\nreg c080 30d00801\nlevel 1\n'
} >"$work/pages"
says '1 range, 1024 pages of 4 KiB' "$work/pages"
says '1 range, 3 pages of 4 KiB' "$work/pages" 1ff234 201000
says '0 ranges, 0 pages of 4 KiB' "$work/pages" 400000 ffffffffffffffff
(cat "$work/pages" && echo 'poke 40004000 60000000f0000703') >"$work/hole"
says '3 ranges, 1024 pages of 4 KiB' "$work/hole"
says 'stage 1 is off: below 2^44 an address without its tag is the physical address' "$work/pages" 2

# A table in which every entry is the table itself: what is not looked at is said, and the status is 1.
{
    echo 'window 40000000 2000'
    for i in $(seq 0 511); do printf 'poke %x 40001003\n' $((0x40001000 + i * 8)); done
    printf 'reg c102 80800019\nreg c100 40001000\nreg c080 30d00801\nlevel 1\n'
} >"$work/self"
"$tool" ranges "$work/self" >"$work/out" 2>"$work/err"
{ [ $? = 1 ] && [ ! -s "$work/err" ] && tail -n 1 "$work/out" | grep -q '^stopped after 400000 walks: from 0000000400000000 on nothing was looked at$' && pass; } || fail 'a map that is too long'

# refused STATUS TEXT ARGUMENTS..
refused() {
    status=$1
    text=$2
    shift 2
    "$tool" ranges "$@" >"$work/out" 2>"$work/err"
    { [ $? = "$status" ] && [ ! -s "$work/out" ] && grep -qF -- "$text" "$work/err" && pass; } || fail "ranges $*: not $status, $text"
}
refused 2 'ranges wants a TRACE'
refused 2 'ranges wants a TRACE' "$work/pages" 0 1 1 1
refused 2 'ranges wants FIRST at or below LAST' "$work/pages" 1000 fff
refused 1 'FIRST: not a hexadecimal number of 64 bits' "$work/pages" x 0
refused 1 'LAST: not a hexadecimal number of 64 bits' "$work/pages" 0 10000000000000000
refused 1 'LEVEL: 0, 1, 2 or 3' "$work/pages" 4
refused 1 'No such file' "$work/none"
refused 2 '--svg is an option of census' "$work/pages" --svg
printf 'level 1\np-level 4\n' >"$work/high"
refused 1 "the core's level is above 3" "$work/high"

echo "$good as expected, $bad otherwise"
[ "$bad" -eq 0 ]
