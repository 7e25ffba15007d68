#!/bin/sh
# --json: what each command writes is JSON, a document on one line (of run one for each operation), and from it the lines of the text come out that hold its numbers.
# Wants target/bin/a72 and python3. Its last line is 'json: N as expected, M otherwise'.
set -u
cd "$(dirname "$0")/.." || exit 1
tool=${1-./a72}
command -v python3 >/dev/null || { echo 'json.sh: python3 is missing: --json is not tested'; exit 0; }
work=$(mktemp -d) || exit 1
trap 'rm -rf "$work"' EXIT
good=0
bad=0
pass() { good=$((good + 1)); }
fail() { bad=$((bad + 1)); echo "differs: $1"; }

# same COMMAND ..: each line that the JSON gives stands in the text, in order, and the two statuses are one. With EVERY=1 no line of the text is missing.
same() {
    "$tool" "$@" >"$work/text" 2>"$work/said"
    status=$?
    "$tool" "$@" --json >"$work/json" 2>"$work/err"
    got=$?
    python3 tests/texts_of_json.py "$1" <"$work/json" >"$work/lines" 2>"$work/why"
    read=$?
    sed 's/ *$//' "$work/text" >"$work/all"
    [ "$1" != help ] || sed -i 's/^usage: //; s/^ *//' "$work/all" "$work/lines"
    missing=$(diff "$work/lines" "$work/all" | grep -c '^<')
    more=$(diff "$work/lines" "$work/all" | grep -c '^>')
    if [ "$read" = 0 ] && [ -s "$work/lines" ] && [ "$got" = "$status" ] && [ "$missing" = 0 ] && [ ! -s "$work/err" ] && [ "$more" -le "${MORE-0}" ]; then
        pass
    else
        fail "$* (status $got, of the text $status; lines of the text that are missing: $more)"
        cat "$work/why" "$work/err" | tail -n 3
        diff "$work/lines" "$work/all" | head -n 6
    fi
}

# A line of the text for each document of a run, and each of its fields.
for t in recorded/cases.trace recorded/leaves.trace recorded/census.trace recorded/mixed-1.trace; do same run "$t"; done
for t in tests/names.trace tests/instrument.trace; do
    same run "$t" --short
    same run "$t" --words --full
done
for way in '' write fetch 'read 0' 'read 2' 'fetch 3'; do
    # shellcheck disable=SC2086
    for va in 100234 104000 1100000 ffffffffffff0000; do same walk tests/instrument.trace $va $way; done
done
for words in '' 'write user' 'fetch privileged 0' 'read user 2' 'read user 3'; do
    # shellcheck disable=SC2086
    for va in 100234 101000 c0000000 800000 8000000000 ffffff8020000000; do same flip tests/regimes.trace $va $words; done
done
printf 'window 40000000 1000\nreg tcr_el1 800010\nreg ttbr0_el1 40000000\nreg sctlr_el1 1\npoke 40000008 1\nlevel 1\nflip 1 0 0\nflip 2 1 8000000000\n' >"$work/trace"
for va in 0 8000000000 10000000000; do same flip "$work/trace" $va; done
same run "$work/trace"
echo 'reg ttbr0_el1 50000000' >>"$work/trace"
same flip "$work/trace" 0
for t in tests/*.trace; do
    same walk "$t" 100234
    same walk "$t" 0 read 2
    same flip "$t" 100234
    same flip "$t" 0 write user 2
    same audit "$t" --all
    MORE=4 same counters "$t"
    MORE=3 same reads "$t" 2
    MORE=1 same ranges "$t"
    MORE=1 same ranges "$t" 0 1fffffff 2
    MORE=3 same census "$t" 0 10000
done
same audit tests/audit.trace
same run tests/cores.trace
same run tests/cores.trace --words --full
printf 'core ffffffffffffffff\ntr 1 0\nlevel 1\ncore 3\nlevel 1\n' >"$work/trace"
same run "$work/trace"
same run "$work/trace" --short
MORE=3 same reads tests/instrument.trace
for range in '0 21' '123 0' '0 400 3' '0 400 2'; do
    # shellcheck disable=SC2086
    MORE=3 same census tests/instrument.trace $range
done
printf 'w-word 1455 ffffffffffffffff\nw-word 1459 ffffffffffffffff\nw-word 1458 1\n' >"$work/trace"
MORE=4 same counters "$work/trace"
MORE=24 same chord
for total in 0 1 31250 34014 1500034014 9007199254740991 9007199254740992 18446744073709551615; do
    same frames $total
    same frames $total 48000
    same frames $total 44100
done
list() { python3 -c 'import struct, sys; w = [a.split(":") for a in sys.argv[1:]]; sys.stdout.buffer.write(struct.pack("<H", len(w)) + b"".join(struct.pack("<Q", int(a, 16)) for a, _ in w) + b"".join(struct.pack("<H", int(n)) for _, n in w))' "$@" >"$work/list"; }
for windows in '' '100000:1' '200000:16 100000:1 8002f000:3' '100000:2 40101000:4' '200000:16 204000:16' 'fffffffffffff000:1'; do
    # shellcheck disable=SC2086
    list $windows
    same windows tests/regimes.trace "$work/list"
    same windows tests/names.trace "$work/list"
done
{ cat tests/regimes.trace; echo win; echo bytes 0000; echo win; echo bytes 0200; echo bytes 00002000000000000040200000000000; echo bytes 10001000; echo win; echo bytes 010000101000000000000100; echo win; } >"$work/trace"
same run "$work/trace"
same run "$work/trace" --words
MORE=0 same help

# refused STATUS DOCUMENT COMMAND ..: nothing is on standard output, and on standard error the document alone.
refused() {
    status=$1
    document=$2
    shift 2
    "$tool" "$@" >"$work/out" 2>"$work/err"
    got=$?
    if [ "$got" = "$status" ] && [ ! -s "$work/out" ] && [ "$(cat "$work/err")" = "$document" ] && python3 -m json.tool <"$work/err" >/dev/null; then pass; else fail "$* (status $got): $(head -n 2 "$work/err")"; fi
}

printf 'level 1\nldd 0\n' >"$work/a \"trace\""
refused 1 "{\"place\":\"$work/a \\\"trace\\\"\",\"line\":2,\"column\":1,\"reason\":\"no line of a trace has this name (the nearest is ld)\"}" run --json "$work/a \"trace\""
refused 1 '{"place":"none","reason":"No such file or directory"}' audit none --json
refused 1 '{"place":"--image","reason":"No such file or directory"}' run tests/page.trace --image none@0 --json
refused 1 '{"reason":"the view is user or privileged"}' flip tests/page.trace 0 read 1 --json
refused 1 '{"reason":"LEVEL: 0, 1, 2 or 3"}' walk tests/page.trace 0 read 4 --json
refused 1 '{"reason":"TOTAL: not a decimal number of 64 bits"}' frames 1f --json
printf '\1\0\0\0\020\0\0\0\0\0\021\0' >"$work/list"
refused 1 "{\"place\":\"$work/list\",\"byte\":10,\"reason\":\"window 0 has 17 pages, at most 16 are allowed\"}" windows --json tests/page.trace "$work/list"
refused 1 '{"place":"none","reason":"No such file or directory"}' windows tests/page.trace none --json
refused 1 '{"reason":"the rate is 48000 or 44100 frames a second"}' frames 1 96000 --json
refused 1 '{"reason":"PAGES: more than 65536 pages (10000 hexadecimal)"}' census tests/page.trace 0 10001 --json
refused 2 '{"reason":"no such command: runs (the nearest is run)"}' runs --json
refused 2 '{"reason":"no such option: --long"}' run tests/page.trace --json --long
refused 2 '{"reason":"--short is an option of run"}' --json walk tests/page.trace 0 --short
refused 2 '{"reason":"census wants --svg or --json, and not both"}' census tests/page.trace 0 1 --svg --json
refused 2 '{"reason":"no command"}' --json
refused 2 '{"reason":"chord wants nothing more"}' chord --json x
[ "$("$tool" --version --json)" = "{\"version\":\"$("$tool" --version | sed 's/^a72 //')\"}" ] && pass || fail '--version --json'
"$tool" help --json >/dev/full 2>"$work/err"
[ $? = 1 ] && [ "$(cat "$work/err")" = '{"place":"write","reason":"No space left on device"}' ] && pass || fail 'standard output that takes no more'

# A count that a float does not hold is text.
printf 'w-word 1455 20000000000000\nw-word 1456 1fffffffffffff\n' >"$work/trace"
"$tool" counters "$work/trace" --json | grep -q '"entries":"9007199254740992".*"entries":9007199254740991' && pass || fail 'counts about 2^53'

# A run is written as it goes: what came before a bad line of standard input is there.
printf 'level 1\nworse\n' | "$tool" run - --short --json >"$work/out" 2>"$work/err"
[ $? = 1 ] && [ "$(cat "$work/out")" = '{"line":1,"operation":"level 1","answer":{"kind":"done"}}' ] && grep -q '^{"place":"-","line":2,"column":1,' "$work/err" && pass || fail 'a bad line after a good one'

echo "json: $good as expected, $bad otherwise"
[ "$bad" -eq 0 ]
