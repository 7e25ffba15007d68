#!/bin/sh
# Traces of four cores, by `core N`: a core among four is one by itself while nothing is shared; what is handed on; numbers above 3; the other commands, which are of the
# core that a trace leaves; the audit of each core; and lines that are refused. Wants target/bin/a72 (tools/build a72). Its last line is 'N as expected, M otherwise'.
set -u
cd "$(dirname "$0")/.." || exit 1
tool=./a72
[ -x target/bin/a72 ] || { echo "cores.sh: target/bin/a72 is missing: ./run or tools/build a72 makes it"; exit 1; }
work=$(mktemp -d) || exit 1
trap 'rm -rf "$work"' EXIT
good=0
bad=0
pass() { good=$((good + 1)); }
fail() { bad=$((bad + 1)); echo "differs: $1"; }

# Any core by itself, in a trace that shares nothing, is the one core: line by line, and in each command.
single=tests/instrument.trace
"$tool" run $single | sed 's/^[0-9]* //' >"$work/want"
for n in 0 1 2 3; do
    { echo "core $n"; cat $single; } >"$work/trace"
    "$tool" run "$work/trace" | sed "s/^[0-9]* core $n: //" >"$work/out"
    cmp -s "$work/want" "$work/out" && pass || fail "core $n by itself"
    [ "$("$tool" audit "$work/trace")" = "$("$tool" audit $single)" ] && pass || fail "the audit of core $n by itself"
    for command in counters 'reads 7' 'walk 100234' 'walk 100234 write 0' 'flip 101000 write' 'census 0 400' 'ranges 1' 'run --short --full'; do
        name=${command%% *}
        rest=${command#"$name"}
        # shellcheck disable=SC2086
        "$tool" "$name" $single $rest >"$work/one" 2>&1
        # shellcheck disable=SC2086
        "$tool" "$name" "$work/trace" $rest >"$work/four" 2>&1
        if [ "$name" = run ]; then
            sed -i '/ => /d' "$work/one" "$work/four"
        fi
        { echo "core $n"; cat "$work/one"; } | cmp -s - "$work/four" && pass || fail "$command of core $n"
    done
done

# answers TEXT TRACE: the last answer of a trace, from the number of its core on.
answers() {
    printf '%s\n' "$2" >"$work/trace"
    told=$("$tool" run "$work/trace" --short 2>&1 | tail -n 1 | sed 's/^[0-9]* //')
    [ "$told" = "$1" ] && pass || fail "$2: $told, not $1"
}

# holds TEXT TRACE: the last line of a trace has the text. The counters of a core and its mark stand in the line of each of its operations.
holds() {
    printf '%s\n' "$2" >"$work/trace"
    "$tool" run "$work/trace" 2>&1 | tail -n 1 | grep -qF -- "$1" && pass || fail "$2: no $1"
}

# The caller flushes once, and so does each of the others, and no mark is left; a local TLBI reaches none; what is refused hands nothing on of a mark from before, nor does a leaf.
holds 'fl=1 dr=0 ep=1 bc=0:0' "$(printf 'core 0\ntlbi vmalle1is\nl-asid')"
for n in 1 2 3; do holds 'fl=1 dr=0 ep=1 bc=0:0' "$(printf 'core 0\ntlbi vmalle1is\ncore %s\nl-asid' $n)"; done
holds 'fl=0 dr=0 ep=0 bc=0:0' "$(printf 'core 0\ntlbi vmalle1\ncore 1\nl-asid')"
holds 'fl=1 dr=0 ep=1 bc=1:0' 'tlbi vmalle1is'
holds 'fl=1 dr=0 ep=1 bc=1:0' "$(printf 'tlbi vmalle1is\ncore 0\nl-asid')"
holds 'fl=1 dr=0 ep=1 bc=1:0' "$(printf 'tlbi vmalle1is\ncore 0\nld 0 3')"
holds 'fl=0 dr=0 ep=0 bc=0:0' "$(printf 'tlbi vmalle1is\ncore 0\nld 0 3\ncore 2\nl-asid')"
holds 'fl=1 dr=0 ep=1 bc=0:0' "$(printf 'tlbi vmalle1is\ncore 0\nld 0 8')"
holds 'fl=1 dr=0 ep=1 bc=0:0' "$(printf 'tlbi vmalle1is\ncore 0\nld 0 8\ncore 2\nl-asid')"
for looked in 'census 0 1' 'win' 'flip 1 0 0'; do
    holds 'bc=1:0' "$(printf 'tlbi vmalle1is\ncore 0\np-level 4\n%s' "$looked")"
done
for looked in 'census 0 1' 'flip 1 0 0'; do
    holds 'bc=0:0' "$(printf 'tlbi vmalle1is\ncore 0\n%s' "$looked")"
    holds 'fl=1 dr=0 ep=1' "$(printf 'tlbi vmalle1is\ncore 0\n%s\ncore 3\nl-asid' "$looked")"
done
holds 'bc=0:0' "$(printf 'tlbi vmalle1is\ncore 0\nbytes 0000\nwin')"
holds 'bc=1:0' "$(printf 'tlbi vmalle1is\ncore 0\nbytes 00\nwin')"
# a list with a page that faults is refused too
holds 'page 0 0 ' "$(printf 'reg sctlr_el1 1\nlevel 1\ntlbi vmalle1is\ncore 0\nbytes 010000000000000000000100\nwin')"
holds 'bc=1:0' "$(printf 'reg sctlr_el1 1\nlevel 1\ntlbi vmalle1is\ncore 0\nbytes 010000000000000000000100\nwin')"
# `fresh` makes all four, and core 2 is spoken to as before; levels above 3 are each core's own.
holds 'core 2: l-asid => val 0 | h=0 w=0 l0=0:0 l1=0:0 l2=0:0 l3=0:0 fl=0 dr=0 ep=0' "$(printf 'core 1\ntlbi vmalle1is\ncore 2\nfresh\nl-asid')"
holds 'el=3 ' "$(printf 'core 1\nlevel 1\ncore 2\nfresh\ncore 1\nl-asid')"
holds 'el=4096 ' "$(printf 'core 1\np-level 1000\ncore 2\np-level 2000\ncore 1\nl-asid')"
# the window is one
answers 'core 3: ld 8 8 => val 5 rd=0' "$(printf 'core 1\nwindow 0 100\nst 8 8 5\ncore 3\nld 8 8')"

# Above 3 each operation is answered 8, and nothing moves, whatever else it would miss.
for n in 4 5 100 ffffffffffffffff; do
    for t in recorded/leaves.trace recorded/pokes.trace recorded/census.trace recorded/flips.trace recorded/windows.trace recorded/cases.trace; do
        { echo "core $n"; sed 's/#.*//' $t; } >"$work/trace"
        "$tool" run "$work/trace" >"$work/out" 2>&1
        if [ -s "$work/out" ] && ! grep -qv "^[0-9]* core $n: .* => no 8\( rd=0\)\{0,1\}\$" "$work/out"; then pass; else fail "core $n in $t: $(grep -v '=> no 8' "$work/out" | head -n 1)"; fi
    done
done
grep -vE '^ *(fresh|window|zero|poke|load|bytes)' recorded/pokes.trace | sed 's/#.*//' >"$work/above"
printf 'w-word 44 0\nw-hint 1 2 3\nw-entry 1 2 3 4 5\nw-fetch 1 2 3\nst 0 8 1\ndc zva x0\n' >>"$work/above"
{ printf 'window 0 100\ncore 0\nlevel 1\n'; printf 'l-asid\n'; } >"$work/trace"
"$tool" run "$work/trace" | tail -n 1 | sed 's/.* => //' >"$work/want"
{ printf 'window 0 100\ncore 0\nlevel 1\ncore 4\n'; cat "$work/above"; printf 'core 0\nl-asid\n'; } >"$work/trace"
"$tool" run "$work/trace" | tail -n 1 | sed 's/.* => //' | cmp -s - "$work/want" && pass || fail 'operations on core 4 move nothing'
answers 'core 0: win => none' "$(printf 'core 4\nbytes 00\nwin\ncore 0\nbytes 0000\nwin')"

# refused STATUS TEXT ARGUMENTS..
refused() {
    status=$1
    text=$2
    shift 2
    "$tool" "$@" >"$work/out" 2>"$work/err"
    { [ $? = "$status" ] && [ ! -s "$work/out" ] && grep -qF -- "$text" "$work/err" && pass; } || fail "$*: not $status, $text"
}
none='a72: the trace ends on a core above 3: there are the cores 0 to 3'
{ cat $single; echo 'core 4'; } >"$work/trace"
printf '\0\0' >"$work/list"
for command in 'counters' 'reads' 'walk 0' 'flip 0' 'census 0 1' 'census 0 1 --svg' 'ranges' "windows $work/list"; do
    name=${command%% *}
    # shellcheck disable=SC2086
    refused 1 "$none" "$name" "$work/trace" ${command#"$name"}
done
"$tool" run "$work/trace" --short --full >"$work/out" 2>"$work/err"
[ $? = 1 ] && [ "$(cat "$work/err")" = "$none" ] && "$tool" run $single --short | cmp -s - "$work/out" && pass || fail 'run --full where the trace ends on core 4'

# The audit: tests/cores.trace with each form of TLBI in the place of its last; a reception that does not cover; a core's own TLBI; a mark from before.
# stale N NAME: the audit of the trace finds so many stale answers.
stale() {
    "$tool" audit "$work/trace" --all >"$work/out" 2>"$work/err"
    [ "$(grep -c '^STALE at ' "$work/out")" = "$1" ] && [ ! -s "$work/err" ] && ! grep -q COVERED "$work/out" && pass || fail "$2: $(tail -n 1 "$work/out"), not $1 stale"
}
# with LINE: the trace with this line in the place of its last TLBI.
with() { awk -v last="$1" '/^tlbi/ && ++n == 2 { print last; next } { sub(/ *#.*/, ""); print }' tests/cores.trace >"$work/trace"; }
for form in 'vae1is x1' 'vaae1is x1' 'vale1is x1' 'vaale1is x1' vmalle1is; do with "tlbi $form" && stale 0 "$form"; done
for form in 'vae1 x1' 'vaae1 x1' vmalle1 'aside1 x1'; do with "tlbi $form" && stale 1 "$form"; grep -qF "  unheard    line 36, core 0: " "$work/out" && pass || { [ "$form" = 'aside1 x1' ] || fail "no unheard of $form"; }; done
with 'tlbi vae1is x2' && stale 1 'a page beside it'
grep -q '^  TLBI       1 since, which does not cover it' "$work/out" && pass || fail 'a reception that does not cover'
with 'tlbi aside1is x1' && stale 1 'by ASID, of a global page'
with 'reg tcr_el1 80800018' && stale 1 "a register of core 0 is core 0's"
grep -q unheard "$work/out" && fail 'a write of a register is no TLBI' || pass
with 'tlbi vae1 x1'
{ cat "$work/trace"; printf 'ld 100000 8\nx 1 100\ntlbi vae1 x1\nld 100000 8\n'; } >"$work/more" && mv "$work/more" "$work/trace"
stale 2 "core 1's own TLBI ends it"
# a mark from before the first line of a core is heard once an operation is done
{ sed 's/#.*//' tests/page.trace; printf 'tlbi vmalle1is\ncore 1\nreg tcr_el1 80800019\nreg ttbr0_el1 40001000\nreg sctlr_el1 30d00801\nlevel 1\nld 100000 8\npoke 40003800 60000040011703\nld 100000 8\ncore 0\nld 100000 8\ncore 1\nld 100000 8\n'; } >"$work/trace"
stale 1 'a mark that was pending'
"$tool" audit tests/cores.trace --json | python3 -c '
import json, sys
f, = json.load(sys.stdin)["findings"]
assert f["at"] == {"line": 39, "core_number": 1, "text": "ld 100000 8"} and f["filled"]["changed"]["core_number"] == 0 and f["filled"]["unheard"]["line"] == 36' && pass || fail 'the finding as JSON'

line() { printf '%s\n' "$2" >"$work/trace" && refused 1 "a72: $work/trace:$1" run "$work/trace"; }
line '1:5: an argument is missing' 'core'
line '1:8: a word after the last argument' 'core 1 2'
line '1:6: not a hexadecimal number' 'core x'
line '1:6: not a hexadecimal number' 'core 0x1'
line '1:6: not a hexadecimal number' 'core -1'
line '1:6: a number of more than 64 bits' 'core 10000000000000000'
line '1:1: no line of a trace has this name (the nearest is core)' 'cores 1'
line '1:1: no line of a trace has this name (the nearest is core)' 'Core 1'

echo "$good as expected, $bad otherwise"
[ "$bad" -eq 0 ]
