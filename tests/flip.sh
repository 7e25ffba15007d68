#!/bin/sh
# `a72 flip`: its last line and its status on tables that are written by hand, the same in a trace by `flip`; what the answer becomes, held to a trace with the bit flipped in its RAM;
# the view, the level and the regime; and calls that are refused. Wants target/bin/a72 (tools/build a72). Its last line is 'N as expected, M otherwise'.
set -u
cd "$(dirname "$0")/.." || exit 1
tool=./a72
[ -x target/bin/a72 ] || { echo "flip.sh: target/bin/a72 is missing: ./run or tools/build a72 makes it"; exit 1; }
work=$(mktemp -d) || exit 1
trap 'rm -rf "$work"' EXIT
good=0
bad=0
pass() { good=$((good + 1)); }
fail() { bad=$((bad + 1)); echo "differs: $1"; }

# says LINE ANSWER TRACE ADDRESS KIND USER: the last line is LINE, and `flip KIND USER ADDRESS` at the trace's end is answered ANSWER; USER is 0 or 1.
says() {
    case $6 in 0) view=privileged ;; *) view=user ;; esac
    "$tool" flip "$3" "$4" "$5" $view >"$work/out" 2>"$work/err"
    got=$?
    if [ $got = 0 ] && [ ! -s "$work/err" ] && [ "$(tail -n 1 "$work/out")" = "$1" ]; then pass; else fail "flip $3 $4 $5 $view: status $got, $(cat "$work/out" "$work/err" | tail -n 1), not '$1'"; fi
    { cat "$3"; echo "flip $5 $6 $4"; } >"$work/trace"
    told=$("$tool" run "$work/trace" --short | tail -n 1 | sed 's/.* => //')
    [ "$told" = "$2" ] && pass || fail "flip $5 $6 $4 of $3: $told, not $2"
}

none='no single bit of RAM changes this answer'
regimes=tests/regimes.trace
# A page, a block, faults: bit 0 of the first descriptor; a descriptor of no table, in which bit 0 makes a block; kinds and views.
says 'level 1, descriptor at 40001000, bit 0 (valid): address 40030234 becomes fault 0x05, translation fault, level 1' 'bit 40001000 0' $regimes 100234 read 0
says 'level 1, descriptor at 40001000, bit 0 (valid): fault 0x0f, permission fault, level 3 becomes fault 0x05, translation fault, level 1' 'bit 40001000 0' $regimes 101000 write 0
says 'level 1, descriptor at 40001000, bit 0 (valid): address 40031000 becomes fault 0x05, translation fault, level 1' 'bit 40001000 0' $regimes 101000 fetch 0
says 'level 1, descriptor at 40001000, bit 0 (valid): fault 0x0f, permission fault, level 3 becomes fault 0x05, translation fault, level 1' 'bit 40001000 0' $regimes 101000 fetch 1
says 'level 1, descriptor at 40001010, bit 0 (valid): address 40000000 becomes fault 0x05, translation fault, level 1' 'bit 40001010 0' $regimes 80000000 write 0
says 'level 1, descriptor at 40001018, bit 0 (valid): fault 0x05, translation fault, level 1 becomes fault 0x09, access flag fault, level 1' 'bit 40001018 0' $regimes c0000000 read 0
says 'level 2, descriptor at 40010008, bit 0 (valid): address 80000000 becomes fault 0x06, translation fault, level 2' 'bit 40010008 0' $regimes ffffff8020000000 read 1
# No descriptor: out of range; stage 1 off, also where the address is too large; walks disabled; a base beyond the output size.
says "$none: no descriptor is read" none $regimes 8000000000 read 0
echo 'level 1' >"$work/flat"
says "$none: no descriptor is read" none "$work/flat" 1234 write 0
says "$none: no descriptor is read" none "$work/flat" 100000000000 read 1
says "$none: no descriptor is read" none tests/page.trace ffffffffffff0000 read 0
{ cat $regimes; echo level 3; } >"$work/base"
says "$none: no descriptor is read" none "$work/base" 1234 read 0

# walks TCR DESCRIPTOR: one table at 40001000 whose first descriptor is that; RAM ends behind it.
walks() { printf 'window 40000000 2000\nreg tcr_el1 %s\nreg ttbr0_el1 40001000\nreg sctlr_el1 1\npoke 40001000 %s\nlevel 1\n' "$1" "$2" >"$work/walks"; }
# Level 0, and level 1 and 3 of 64 KiB: of nothing none; of what would be a block bit 1; of '10' bit 0.
for start in '800010 0' '804010 1' '804027 3'; do
    tcr=${start% *}
    level=${start#* }
    walks "$tcr" 0
    says "$none" none "$work/walks" 0 read 0
    walks "$tcr" fffffffffffffffc
    says "$none" none "$work/walks" 0 fetch 1
    walks "$tcr" 701
    "$tool" flip "$work/walks" 0 >"$work/out" 2>&1
    grep -q "^level $level, descriptor at 40001000, bit 1 (table or page): fault 0x0$((4 + level)), translation fault, level $level becomes " "$work/out" && pass || fail "bit 1 at level $level"
    walks "$tcr" 702
    "$tool" flip "$work/walks" 0 >"$work/out" 2>&1
    grep -q "^level $level, descriptor at 40001000, bit 0 (valid): fault 0x0$((4 + level)), translation fault, level $level becomes " "$work/out" && pass || fail "bits 10 at level $level"
done
# The first descriptor outside RAM, before it, behind it, and cut by its end; a deeper one outside RAM.
for base in 3ffff000 50000000; do
    walks 800019 0
    echo "reg ttbr0_el1 $base" >>"$work/walks"
    says "$none: the descriptor at $base lies outside RAM" none "$work/walks" 0 read 0
done
walks 800019 703
echo 'window 40000000 1007' >>"$work/walks"
says "$none: the descriptor at 40001000 lies outside RAM" none "$work/walks" 0 read 0
echo 'window 40000000 1008' >>"$work/walks"
says 'level 1, descriptor at 40001000, bit 0 (valid): fault 0x16, external abort on a table walk, level 2 becomes fault 0x05, translation fault, level 1' 'bit 40001000 0' "$work/walks" 0 read 0
# A table that maps itself, at level 1: the descriptor is read twice.
walks 800019 40001003
says 'level 1, descriptor at 40001000, bit 0 (valid): fault 0x0b, access flag fault, level 3 becomes fault 0x05, translation fault, level 1' 'bit 40001000 0' "$work/walks" 0 read 0

# becomes TRACE ARGUMENTS..: with the bit flipped in RAM by a line, the walk shows what was told, and the answer of before is a flip away.
becomes() {
    trace=$1
    shift
    "$tool" flip "$trace" "$@" >"$work/out" 2>"$work/err"
    line=$(tail -n 1 "$work/out")
    at=$(echo "$line" | sed -n 's/^level [0-3], descriptor at \([0-9a-f]*\), bit .*/\1/p')
    bit=$(echo "$line" | sed -n 's/^level .*, bit \([0-9]*\) (.*/\1/p')
    word=$(sed -n "s/^level .*  at $at  \([0-9a-f]*\)  .*/\1/p" "$work/out" | head -n 1)
    before=$(sed -n 's/^walk now   //p' "$work/out")
    after=${line##* becomes }
    case $line in *": $before becomes "*) pass ;; *) fail "flip $trace $*: $line, of $before" ;; esac
    { cat "$trace"; printf 'poke %s %016x\n' "$at" $((0x$word ^ 1 << bit)); } >"$work/trace"
    "$tool" flip "$work/trace" "$@" >"$work/turned" 2>"$work/err"
    now=$(sed -n 's/^walk now   //p' "$work/turned")
    [ -n "$now" ] && [ "$now" = "$after" ] && pass || fail "flip $trace $*: told $after, is $now"
    [ "$before" != "$after" ] && pass || fail "flip $trace $*: no change"
}
for va in 100234 101000 102000 103000 104000 200000 400000 600000 800000 a00000 40100000 80000000 c0000000; do
    for words in '' 'write user' 'fetch privileged' 'read user 0'; do
        # shellcheck disable=SC2086
        becomes $regimes $va $words
    done
done
for va in 10000 20000000; do becomes $regimes $va read privileged 2; done
for va in 100234 104000 1100000; do becomes tests/instrument.trace $va write; done

# The view: the level's own where none is named, whatever the mark; regimes 2 and 3 have one.
heads() {
    want=$1
    shift
    "$tool" flip "$@" >"$work/out" 2>&1
    [ "$(head -n 1 "$work/out")" = "$want" ] && pass || fail "the first line of flip $*: $(head -n 1 "$work/out")"
}
heads 'read of 0000000000100234 at EL1, privileged: the regime is EL1&0' $regimes 100234
heads 'write of 0000000000100234 at EL0, user: the regime is EL1&0' $regimes 100234 write user 0
heads 'write of 0000000000100234 at EL0, privileged: the regime is EL1&0' $regimes 100234 write privileged 0
heads 'read of 0000000000100234 at EL2, privileged: the regime is EL2' $regimes 100234 read user 2
heads 'read of 0000000000100234 at EL3, privileged: the regime is EL3' $regimes 100234 read user 3
{ cat $regimes; echo level 0; } >"$work/user"
heads 'fetch of 0000000000100234 at EL0, user: the regime is EL1&0' "$work/user" 0x100234 fetch
# Nothing moves: an operation after `flip` lines is what it is without them, RAM's digest too.
{ cat $regimes; echo 'ld 100000 8'; } >"$work/without"
{ cat $regimes; printf 'flip 1 0 100000\nflip 4 1 80000000\nflip 2 0 c0000000\nld 100000 8\n'; } >"$work/with"
"$tool" run "$work/without" | tail -n 1 | sed 's/^[0-9]* //' >"$work/want"
"$tool" run "$work/with" | tail -n 1 | sed 's/^[0-9]* //' | cmp -s - "$work/want" && pass || fail 'a load after flips'
# The kinds and views of a trace by name and by number, as they are printed.
{ cat $regimes; printf 'flip read user 100000\nflip WRITE Privileged 100000\nflip 4 1 +100000\n'; } >"$work/trace"
[ "$("$tool" run "$work/trace" --short | tail -n 3 | sed 's/^[0-9]* //; s/ =>.*//' | tr '\n' ';')" = 'flip 1 1 100000;flip 2 0 100000;flip 4 1 100000;' ] && pass || fail 'flips by name'

# refused STATUS TEXT ARGUMENTS..
refused() {
    status=$1
    text=$2
    shift 2
    "$tool" "$@" >"$work/out" 2>"$work/err"
    { [ $? = "$status" ] && [ ! -s "$work/out" ] && grep -qF -- "$text" "$work/err" && pass; } || fail "$*: not $status, $text"
}
refused 2 'flip wants a TRACE and an ADDRESS' flip
refused 2 'flip wants a TRACE and an ADDRESS' flip $regimes
refused 2 'flip wants no more than a kind of access, a view and a level' flip $regimes 0 read user 1 2
refused 1 'ADDRESS: not a hexadecimal number of 64 bits' flip $regimes page
refused 1 'the kind of access is read, write or fetch' flip $regimes 0 user
refused 1 'the view is user or privileged' flip $regimes 0 read usr
refused 1 'LEVEL: 0, 1, 2 or 3' flip $regimes 0 read user 4
refused 2 'no such command: flp (the nearest is flip)' flp $regimes 0
refused 2 '--svg is an option of census' flip $regimes 0 --svg
refused 1 "a72: $work/none: No such file or directory" flip "$work/none" 0
refused 1 'the view is user or privileged' flip "$work/none" 0 read usr
printf 'level 1\np-level 4\n' >"$work/high"
refused 1 "a72: the core's level is above 3" flip "$work/high" 0
echo 'window fffffffffffff000 2000' >"$work/past"
refused 1 'a72: the window of RAM passes 2^64' flip "$work/past" 0
{ cat "$work/high"; echo 'flip 1 0 0'; } >"$work/trace"
[ "$("$tool" run "$work/trace" --short | tail -n 1)" = '3 flip 1 0 0 => no 1' ] && pass || fail 'a flip at a level above 3'
{ cat "$work/past"; echo 'flip 1 0 0'; } >"$work/trace"
[ "$("$tool" run "$work/trace" --short | tail -n 1)" = '2 flip 1 0 0 => no 2' ] && pass || fail 'a flip with a window past 2^64'
line() { printf '%s\n' "$2" >"$work/trace" && refused 1 "a72: $work/trace:$1" run "$work/trace"; }
line '1:6: no kind of access (1 read, 2 write, 4 fetch)' 'flip 3 0 0'
line '1:8: no view (0 privileged, 1 user)' 'flip 1 2 0'
line '1:8: no view (0 privileged, 1 user)' 'flip 1 kernel 0'
line '1:8: not a hexadecimal number' 'flip 1 0x0 0'
line '1:9: an argument is missing' 'flip 1 0'
line '1:12: a word after the last argument' 'flip 1 0 0 0'
line '1:1: no line of a trace has this name (the nearest is flip)' 'fli 1 0 0'

echo "$good as expected, $bad otherwise"
[ "$bad" -eq 0 ]
