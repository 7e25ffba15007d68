#!/bin/sh
# The tool beside the Rust: `a72 run` against the oracle's `run --right` on every recorded trace and on generated ones; then the samples of the documents, the counters by
# level, the census, bad files and arguments.
# Wants target/bin/a72 (tools/build a72) and oracle/target/release (cargo build --offline --release in oracle/). Usage: tests/tool.sh [SEEDS]
set -u
cd "$(dirname "$0")/.."
tool=./a72
rust=${CARGO_TARGET_DIR:-oracle/target}/release
[ -x target/bin/a72 ] || { echo "tool.sh: target/bin/a72 is missing: ./run or tools/build a72 makes it"; exit 1; }
for program in run generate faithful; do
    [ -x "$rust/$program" ] || { echo "tool.sh: $rust/$program is missing: cargo build --offline --release in oracle/ makes it"; exit 1; }
done
seeds=${1-5}
work=$(mktemp -d) || exit 1
trap 'rm -rf "$work"' EXIT
good=0
bad=0

# pass NAME, or fail NAME.
pass() { good=$((good + 1)); }
fail() { bad=$((bad + 1)); echo "differs: $1"; }

# same TRACE NAME: the two outputs are one.
same() {
    "$tool" run "$1" >"$work/ours" 2>"$work/err"
    "$rust/run" --right "$1" >"$work/rust" 2>/dev/null
    if [ -s "$work/rust" ] && cmp -s "$work/ours" "$work/rust" && [ ! -s "$work/err" ]; then pass; else fail "$2"; fi
}

for t in recorded/*.trace; do same "$t" "$t"; done
for seed in $(seq 1 "$seeds"); do
    for kind in --strict --wild ""; do
        # shellcheck disable=SC2086
        "$rust/generate" "$seed" 3000 $kind >"$work/trace"
        same "$work/trace" "generate $seed 3000 $kind"
    done
done

# The samples of the documents: each command, and what is shown below it.
mkdir -p target
awk -v to="$work/sample" -f tests/samples.awk README.md docs/TOOL.md tests/samples.md >"$work/samples"
held=0
left=0
while read -r number what rest; do
    case $number in
    !) fail "$what: a block that is no sample, and does not say why it is not run" ;;
    -) left=$((left + 1)) && echo "not run: $what $rest" ;;
    *)
        held=$((held + 1))
        sed "s|oracle/target/release|$rust|g" "$work/sample.$number.run" >"$work/command"
        sh "$work/command" >"$work/out" 2>&1 </dev/null
        if awk -f tests/shown.awk "$work/sample.$number.want" "$work/out" >"$work/told"; then pass; else fail "$rest: $(cat "$work/command")" && cat "$work/told"; fi
        ;;
    esac
done <"$work/samples"
[ "$held" -gt 0 ] && pass || fail 'no sample was found'
echo "samples: $held held, $left blocks not run"

# Every text of the tool's sources stands in a sample, but these, which no input of a test reaches, or which are read and not written.
cat "$work"/sample.*.want >"$work/shown"
cat >"$work/unshown" <<'UNSHOWN'
walk_report/src/fields.rt: -w-
walk_report/src/fields.rt: -wx
manual_words/src/status.rt: another fault
census_report/src/letter.rt: another fault
census_report/src/letter.rt: no right
chord/src/note.rt: C#
chord/src/note.rt: Eb
chord/src/note.rt: G#
chord/src/story.rt: THE CHORD LOST A TONE
trace_source/src/report.rt:  (os error 
trace_source/src/report.rt: more than 1000000000 lines
audit_report/src/finding.rt: COVERED, AND KEPT, AT 
audit_report/src/finding.rt:   changed    by no line since
tool_call/src/stop.rt: a stale answer
tool_call/src/stop.rt: not all was looked at
tool_call/src/stop.rt: a trace
tool_call/src/stop.rt: no command
tool_call/src/stop.rt: the proved core lost a tone of the chord
tool_call/src/stop.rt: out of memory
tool_call/src/stop.rt: a wrong list
tool_call/src/stop.rt: windows that are not apart
UNSHOWN
(cd crates && awk -v shown="$work/shown" -f ../tests/texts.awk manual_words/src/*.rt walk_report/src/*.rt census_report/src/*.rt counters_report/src/*.rt reads_report/src/*.rt ranges_report/src/*.rt windows_report/src/*.rt flip_report/src/*.rt frames_report/src/*.rt chord/src/*.rt cache_report/src/*.rt operation_report/src/*.rt \
    audit_report/src/*.rt trace_source/src/*.rt tool_call/src/*.rt trace_file/src/*.rt a72/src/*.rt trace_text/src/aside.rt trace_text/src/reason.rt) | grep -vxF -f "$work/unshown" >"$work/told"
[ ! -s "$work/told" ] && pass || { fail 'texts of the tool that no sample shows' && sed 's/^/    /' "$work/told"; }

# counted_as TRACE: the rows of `a72 counters` are the levels' own and the sums of the last line of `a72 run`.
counted_as() {
    "$tool" counters "$1" >"$work/out" 2>"$work/err"
    shown=$(awk '/^  (EL[0-3]|all) / { printf " %s %s", $2, $3 }' "$work/out")
    run=$("$tool" run "$1" | tail -n 1 | sed 's/.* | h=\([^ ]*\) w=\([^ ]*\) \(l0=.*\) fl=.*/\3 \1 \2/; s/l[0-3]=//g; y/:/ /')
    told=''
    for n in $run; do told="$told $(printf %u "0x$n")"; done
    if [ ! -s "$work/err" ] && [ "$shown" = "$told" ]; then pass; else fail "counters $1:$shown, not$told"; fi
}

# says TEXT TRACE: a line of the counters is the text.
says() {
    printf '%s\n' "$2" >"$work/trace"
    "$tool" counters "$work/trace" >"$work/out" 2>"$work/err"
    if [ ! -s "$work/err" ] && grep -qxF -- "$1" "$work/out"; then pass; else fail "counters, no line '$1'"; fi
}

layout=tests/instrument.trace
for t in recorded/*.trace "$layout"; do counted_as "$t"; done
says 'nothing was walked' ''
says 'no descriptor was read' ''
says '  all            0            0            0        -' ''
says 'EL0 walks most: 5 of 5 walks' 'p-cnt 5'
says 'flushes 5, pages dropped 5, epoch 5' 'p-cnt 5'
says 'EL1 and EL3 walk most: each 2 of 5 walks' "$(printf 'w-word 1459 1\nw-word 145a 2\nw-word 145c 2')"
says '  EL2         1999            1            0    <0.1%  #.......................................' "$(printf 'w-word 1457 7cf\nw-word 145b 1')"
says '  EL2          998            2            0     0.2%  #.......................................' "$(printf 'w-word 1457 3e6\nw-word 145b 2')"
most=ffffffffffffffff
large=$(printf "w-word 1455 $most\nw-word 1459 $most\nw-word 1458 1\nw-word 145c 1")
says '  EL0  18446744073709551615  18446744073709551615            0    50.0%  ####################....................' "$large"
says '  all                     0                     0            0  modulo 2^64' "$large"
says 'EL0 walks most: 18446744073709551615 walks' "$large"

# read_as TRACE: what `a72 run` shows as read since the last `fresh`, of four cores by the one that is spoken to at the end, is what `a72 reads` and `a72 counters`
# add up to, and so many operations read some.
read_as() {
    after=$(awk '$1 == "fresh" { n = NR } END { print n + 0 }' "$1")
    told=$("$tool" run "$1" --short | awk -v after="$after" -v core="$(awk '$1 == "core" { core = $2 ":" } END { print core }' "$1")" '
        $2 == "core" && $3 != core && core != "" { next }
        $1 > after && match($0, / rd=[0-9a-f]+$/) {
            word = substr($0, RSTART + 4)
            for (n = 0; word != ""; word = substr(word, 2)) n = n * 16 + index("0123456789abcdef", substr(word, 1, 1)) - 1
            all += n
            some += n > 0
        }
        END { print some + 0, all + 0 }')
    "$tool" reads "$1" 4294967295 >"$work/out" 2>"$work/err"
    table=$(awk '/^  EL[0-3] / { some += $4; all += $5 } /^  all / { if (some != $4 || all != $5) all = "otherwise" } END { print some + 0, all + 0 }' "$work/out")
    levels=$("$tool" counters "$1" | awk '/^  EL[0-3] / { all += $4 } /^  all / { if (all != $4) all = "otherwise" } END { print all + 0 }')
    if [ ! -s "$work/err" ] && [ "$table" = "$told" ] && [ "$levels" = "${told#* }" ]; then pass; else fail "reads $1: $table, by level $levels, not $told"; fi
}

for t in recorded/*.trace "$layout" tests/crackle.trace; do read_as "$t"; done
for seed in $(seq 1 "$seeds"); do "$rust/generate" "$seed" 3000 --strict >"$work/trace" && read_as "$work/trace"; done
# The pages and levels of each: of a trace whose addresses have no tag, by the addresses of its lines.
"$tool" run "$layout" --short | awk '
    $2 == "level" { level = $3 }
    $2 == "tr" && !/ rd=0$/ { page = sprintf("EL%d %s000", level, substr($4, 1, length($4) - 3)); n[page]++ }
    END { for (page in n) print page, n[page] }' | sort >"$work/want"
"$tool" reads "$layout" 100 | awk '/^  EL[0-3] / { sub(/^0*/, "", $2); print $1, $2, $4 }' | sort >"$work/out"
[ -s "$work/want" ] && cmp -s "$work/want" "$work/out" && pass || fail 'the pages of a72 reads'
# The rows that are shown and the others are all, however many are asked for.
for rows in 0 1 3 4 5 007; do
    "$tool" reads tests/crackle.trace $rows >"$work/out" 2>&1
    shown=$(awk '/^  (EL|others)/ { n += $4; d += $5; rows += /^  EL/ } /^  all / { if (n == $4 && d == $5) print rows }' "$work/out")
    [ "$shown" = $((rows < 4 ? rows : 4)) ] && pass || fail "reads with $rows rows"
done
"$tool" reads - <tests/crackle.trace >"$work/ours" 2>&1
"$tool" reads tests/crackle.trace | cmp -s - "$work/ours" && pass || fail 'reads of standard input'

# expects STATUS MESSAGE TRACE: what the trace's comments expect to be read is held, and the message is that, place first.
expects() {
    printf '%s\n' "$3" >"$work/trace"
    "$tool" run "$work/trace" --short >"$work/out" 2>"$work/err"
    if [ $? = "$1" ] && [ "$(cat "$work/err")" = "${2:+a72: $work/trace:$2}" ]; then pass; else fail "expectation of $3: $(cat "$work/err")"; fi
}

expects 0 '' 'tr 1 0 #= val 0; rd=0 -- flat'
expects 1 '1:22: descriptors read: 0, not 000' 'tr 1 0 #= val 0; h=0 rd=000'
expects 1 '1:17: descriptors read: 0, not 7' 'tr 1 0 #= val 0;rd=7'
expects 1 '1:16: descriptors read: 0, not 5' 'tr 1 0 #= rd=0 rd=5'
expects 0 '' 'tr 1 0 # rd=1 is no expectation'
expects 0 '' 'tr 1 0 #= val 0 -- rd=1'
expects 0 '' 'level 1 #= ok; rd=0'
expects 1 '1:18: descriptors read: 0, not 1' 'tr 1 0 #= val 0; rd=1 -- flat reads none'
expects 1 '1:11: descriptors read: 0, not 20' 'level 1#= rd=20'
[ "$(cat "$work/out")" = '1 level 1 => ok' ] && pass || fail 'the line whose reads are otherwise is shown'
expects 1 '2:9: descriptors read: 0, not 3' "$(printf 'level 1\nzero #= rd=3')"
expects 0 '' "$(cat tests/crackle.trace)"
sed 's/rd=3 -- over/rd=6 -- over/' tests/crackle.trace >"$work/bad"
expects 1 "$(awk '/rd=6/ { print NR ":" index($0, "rd=6") }' "$work/bad"): descriptors read: 3, not 6" "$(cat "$work/bad")"
expects 1 '1:18: not a hexadecimal number (write it without 0x)' 'tr 1 0 #= val 0; rd=0x1'
expects 1 '1:18: not a hexadecimal number (write it without 0x)' 'tr 1 0 #= val 0; rd='
expects 1 '1:18: a number of more than 64 bits' 'tr 1 0 #= val 0; rd=10000000000000000'

# from SOURCE ARGUMENTS..: where `a72 walk` says that the core's answer came from, by the counters of the level.
from() {
    source=$1
    shift
    "$tool" walk "$layout" "$@" >"$work/out" 2>"$work/err"
    if [ ! -s "$work/err" ] && grep -q "^the core .*, $source\$" "$work/out"; then pass; else fail "walk $*: not $source"; fi
}

from 'by a walk' 104000 read 0
from 'by a walk' 104000 fetch
from 'by an entry of the cache' 1100000 read 1
from 'by an entry of the cache' 80000 read 0
from 'by a hint' 100000 write 0
from 'with stage 1 off' 100000 read 3

# The audit: on the lists of the oracle's tester of histories as many translations, and the same stale answers by line and address, as the tester finds; the core
# is right in all.
audited() {
    seed=$1
    "$rust/generate" "$seed" 3000 --strict >"$work/trace"
    "$rust/faithful" "$seed" $((seed + 1)) 3000 --stale >"$work/tester"
    grep '^stale ' "$work/tester" >"$work/want"
    told=$(sed -n 's/^translations \([0-9]*\) .*stale but excused \([0-9]*\);.*/\2 \1/p' "$work/tester")
    "$tool" audit "$work/trace" --all >"$work/out" 2>"$work/err"
    got=$?
    here=$(tail -n 1 "$work/out" | sed 's/^no stale answer in /0 in /; s/ stale in / in /; s/ in \([0-9]*\) accesses$/ \1/')
    found=$(grep -c '^STALE at ' "$work/out")
    awk '/^STALE at line / { sub(":", "", $4); line = $4 } /^  address / { print "stale", line, $2 }' "$work/out" >"$work/which"
    if [ -n "$told" ] && [ "$here" = "$told" ] && [ "$found" = "${told% *}" ] && cmp -s "$work/want" "$work/which" && [ "$got" = $((found > 0)) ] && ! grep -q COVERED "$work/out" && [ ! -s "$work/err" ]; then
        stale=$((stale + found))
        pass
    else
        fail "audit of seed $seed: $here, the tester $told, shown $found, status $got; line and address: $(diff "$work/want" "$work/which" | head -n 3 | tr '\n' ' ')"
    fi
}

stale=0
for seed in $(seq 1 $((seeds * 4))); do audited "$seed"; done
[ "$stale" -gt 0 ] && pass || fail 'no list of the tester has a stale answer'
echo "audited: $((seeds * 4)) lists, $stale stale answers"
for t in recorded/cases.trace "$layout" tests/page.trace tests/stale.trace; do
    "$tool" audit "$t" >"$work/out" 2>&1 && grep -q '^no stale answer in [0-9]* accesses$' "$work/out" && pass || fail "audit $t"
done
"$tool" walk tests/stale.trace 100234 >"$work/out" 2>&1
[ $? = 1 ] && grep -q '^THEY DIFFER' "$work/out" && pass || fail 'the status of a walk that shows a difference'
"$tool" walk tests/page.trace 100234 >"$work/out" 2>&1 && pass || fail 'the status of a walk that shows none'

# Standard input, dumps, and large windows.
"$tool" run - <recorded/cases.trace >"$work/ours" 2>"$work/err"
"$tool" run recorded/cases.trace | cmp -s - "$work/ours" && [ ! -s "$work/err" ] && pass || fail 'a run of standard input'
printf 'level 1\nworse\nlevel 2\n' | "$tool" run - >"$work/out" 2>"$work/err"
[ $? = 1 ] && grep -q '^1 level 1 => ok' "$work/out" && grep -q '^a72: -:2:1: no line' "$work/err" && pass || fail 'a bad line of standard input'
"$tool" run recorded/cases.trace | sed 's/ | .*//' >"$work/ours"
"$tool" run recorded/cases.trace --short | cmp -s - "$work/ours" && pass || fail 'a short run'
head -c 3000000 /dev/urandom >"$work/dump"
word=$(od -An -tx8 -j 2999992 -N 8 "$work/dump" | tr -d ' ' | sed 's/^0*//')
printf 'ld 802dc6b8 8\n' >"$work/trace"
[ "$("$tool" run --image "$work/dump@80000000" "$work/trace" --short)" = "1 ld 802dc6b8 8 => val $word rd=0" ] && pass || fail 'an image'
printf 'window 80000000 10000000\nload %s 80001000\nld 802dd6b8 8\nld 80000ff8 8\n' "$work/dump" >"$work/trace"
[ "$("$tool" run "$work/trace" --short)" = "$(printf '3 ld 802dd6b8 8 => val %s rd=0\n4 ld 80000ff8 8 => val 0 rd=0' "$word")" ] && pass || fail 'a load into a window of 256 MiB'
{ printf 'window 0 200000\n'; awk 'BEGIN { for (n = 0; n < 262144; n++) printf "poke %x %x\n", n * 8, n; for (n = 0; n < 20000; n++) printf "st %x 8 1\n", n * 8 }'; } >"$work/trace"
[ "$(timeout 20 "$tool" run "$work/trace" --short | tail -n 1)" = '282145 st 270f8 8 1 => ok rd=0' ] && pass || fail '2 MiB of pokes and 20,000 stores'
[ "$(timeout 20 "$tool" audit "$work/trace")" = 'no stale answer in 20000 accesses' ] && pass || fail 'an audit of 20,000 stores'

# The census: its rows add up to the pages, and the cells of its map are as many as it says.
{ cat "$layout"; printf 'census 0 10000\ncensus 123 0\nlevel 0\ncensus 0 400\nlevel 3\ncensus 0 400\ncensus 0 10001\n'; } >"$work/trace"
same "$work/trace" 'a census of the sample'

# counted PAGES PER FIRST PAGES.. : pages in decimal, pages of a cell, then the arguments.
counted() {
    pages=$1
    per=$2
    shift 2
    "$tool" census "$layout" "$@" >"$work/out" 2>"$work/err"
    if [ ! -s "$work/err" ] && awk -v pages="$pages" -v per="$per" '
        /%$/ { sum += $(NF - 1) }
        /^ +in all / { all = $NF; found = 1 }
        /^  [0-9a-f]+  / && length($1) == 16 { row = length($2); cells += row }
        /^  \.\. / { cells += row * $5 }
        END { exit !(found && sum == pages && all == pages && cells == int((pages + per - 1) / per)) }' "$work/out"; then pass; else fail "census $*"; fi
}

counted 65536 16 0 10000
counted 65535 16 0 ffff
counted 32769 16 0x1000 0x8001
counted 32768 8 0 8000
counted 4097 2 0 1001
counted 4096 1 0 1000
counted 1000 1 fff 3e8 0
counted 64 1 0 40 2
counted 1 1 ffffffffffffffff 1 3
counted 0 1 0 0
# The picture is well-formed, has as many cells as the map, and is all that is written.
drawn() {
    cells=$1
    shift
    "$tool" census "$layout" "$@" --svg >"$work/out" 2>"$work/err"
    if [ ! -s "$work/err" ] && python3 - "$work/out" "$cells" <<'PICTURE'
import sys
import xml.etree.ElementTree as tree
root = tree.parse(sys.argv[1]).getroot()
wide = sum(int(e.get("width")) for e in root.iter("{http://www.w3.org/2000/svg}rect") if e.get("x") not in (None, "808"))
sys.exit(root.tag != "{http://www.w3.org/2000/svg}svg" or wide != 10 * int(sys.argv[2]))
PICTURE
    then pass; else fail "census $* --svg"; fi
}

if command -v python3 >/dev/null; then
    drawn 4096 0 10000
    drawn 2049 0 1001
    drawn 33 0 21 3
    drawn 0 0 0
else
    echo 'tool.sh: python3 is missing: pictures are not tested'
fi

# Names stand for numbers.
grep -v '^#' tests/names.txt | sed 's/ = .*//' >"$work/trace"
grep -v '^#' tests/names.txt | sed 's/.* = //' >"$work/good"
"$tool" run "$work/trace" >"$work/ours" 2>"$work/err"
"$tool" run "$work/good" | cmp -s - "$work/ours" && [ "$(wc -l <"$work/ours")" = "$(wc -l <"$work/good")" ] && [ ! -s "$work/err" ] && pass || fail 'lines by names'
"$tool" run "$work/good" --words 2>&1 | grep -v '^    ' >"$work/ours"
"$tool" run "$work/good" --short | cmp -s - "$work/ours" && pass || fail 'a run in words is a short run, and words'

# refused STATUS TEXT COMMAND..: the message holds the text, nothing is on standard output, and the status is that.
refused() {
    status=$1
    text=$2
    shift 2
    "$tool" "$@" >"$work/out" 2>"$work/err"
    got=$?
    if [ "$got" -eq "$status" ] && [ ! -s "$work/out" ] && grep -qF -- "$text" "$work/err"; then pass; else fail "$* (status $got): $(head -1 "$work/err")"; fi
}

# line TEXT..: a trace whose third line is the text is refused at it.
line() {
    printf 'fresh\nwindow 0 1000\n%s\n' "$1" >"$work/bad"
    refused 1 ":3:$2: $3" run "$work/bad"
}

line 'translate 1 0' 1 'no line of a trace has this name'
line 'tr 3 0' 4 'no kind of access'
line 'tr 1' 5 'an argument is missing'
line 'ld 0 0x8' 6 'not a hexadecimal number'
line 'ld 10000000000000000 8' 4 'a number of more than 64 bits'
line 'ld 0 100000000' 6 'a number of more than 32 bits'
line 'abort svc 10000' 11 'a number of more than 16 bits'
line 'abort data 0 0 100' 16 'a number of more than 8 bits'
line 'abort trap' 7 'no such exception'
line 'l-on 4' 6 'no regime'
line 'window 0 20000001' 10 'a window of more than'
line 'mark 3' 6 'no flag'
line 'abort data 0 2 0' 14 'no flag'
line 'w-fetch 0 100 0' 11 'a number of more than 8 bits'
line 'level 1 level 2' 9 'a word after the last argument'
line "$(printf 'level 1\rlevel 2')" 9 'a word after the last argument'
line 'l-asid 0' 8 'a word after the last argument'
line 'load' 5 'an argument is missing'
line 'load tests/page.trace' 22 'an argument is missing'
line 'load tests/page.trace 0x0' 23 'not a hexadecimal number'
line 'load none 0' 6 'No such file'
line 'load tests 0' 6 "the file's bytes do not all lie in the window"
line "load $work/dump 0" 6 "the file's bytes do not all lie in the window"
line "$(printf 'x 1 \001')" 5 'a byte that no line holds'
# Names that are none, each with the nearest.
line 'reg TCR_EL 0' 5 'neither a hexadecimal number nor a register (the nearest is TCR_EL1)'
line 'reg sctrl_el2 0' 5 'neither a hexadecimal number nor a register (the nearest is SCTLR_EL2)'
line 'reg ttbr1_el2 0' 5 'neither a hexadecimal number nor a register (the nearest is TTBR0_EL2)'
line 'reg 0xc102 0' 5 'not a hexadecimal number'
line 'reg TCR_EL1' 12 'an argument is missing'
line 'reg tcr_el1 0 1' 15 'a word after the last argument'
line 'reg 100000000 0' 5 'a number of more than 32 bits'
line 'reg tcr_el1 x0' 13 'not a hexadecimal number'
line 'l-bank tcr' 8 'neither a hexadecimal number nor a register'
line 'tlbi' 5 'an argument is missing'
line 'tlbi vae1is' 12 'an argument is missing'
line 'tlbi vae1si x1' 6 'no such operation (the nearest is vae1)'
line 'tlbi vmalle x1' 6 'no such operation (the nearest is vmalle1)'
line 'tlbi vmalle1 x1' 14 'a word after the last argument'
line 'tlbi vae1 x31' 11 'no general register'
line 'tlbi vae1 x01' 11 'no general register'
line 'tlbi vae1 w1' 11 'not a hexadecimal number'
line 'tlbi vae1, , x1' 12 'not a hexadecimal number'
line 'tlbi vae1 100000000' 11 'a number of more than 32 bits'
line 'at s1e4r x0' 4 'no such operation (the nearest is s1e1r)'
line 'at s1e1r' 9 'an argument is missing'
line 'at x0' 4 'no such operation'
line 'dc civac' 9 'an argument is missing'
line 'dc iallu' 4 'no such operation'
line 'ic zva x0' 4 'no such operation'
line 'ic iallu x0' 10 'a word after the last argument'
line 'dc' 3 'an argument is missing'
line 'tlb vae1 x1' 1 'no line of a trace has this name (the nearest is tlbi)'
line 'TR 1 0' 1 'no line of a trace has this name (the nearest is tr)'
line 'msr TCR_EL1 x0' 1 'no line of a trace has this name'
line 'p-gne 1' 1 'no line of a trace has this name (the nearest is p-gen)'
line 'w-entri 0 0 0 0 0' 1 'no line of a trace has this name (the nearest is w-entry)'
line 'l-wlk 1 0' 1 'no line of a trace has this name (the nearest is l-walk)'
line 'tr exec 0' 4 'no kind of access'
line 'flip exec 0 0' 6 'no kind of access'
line 'flip 1 both 0' 8 'no view'
line 'tr 5 0' 4 'no kind of access'
line 'tr 0 0' 4 'no kind of access'
line 'abort' 6 'an argument is missing'
line 'abort undefind' 7 'no such exception'
line 'abort svc' 10 'an argument is missing'
line 'abort brk -1' 11 'not a hexadecimal number'
line 'abort pca 1' 11 'a word after the last argument'
line 'abort insn 0' 13 'an argument is missing'
line 'abort data 0 fetch 7' 14 'no flag'
line 'l-on el4' 6 'no regime'
line 'l-on 0' 6 'no regime'
line 'l-walk 1' 9 'an argument is missing'
line 'l-bits' 7 'an argument is missing'
line 'l-perm 100' 8 'a number of more than 8 bits'
line 'l-vec 0 1 2' 11 'no flag'
line 'l-syn 0 1 0 none' 13 'no such exception'
line 'p-gen 100000000' 7 'a number of more than 32 bits'
line 'p-bc 1' 6 'a word after the last argument'
line 'p-spsel 2' 9 'no flag'
line 'w-hint 10000 0 0' 8 'a number of more than 16 bits'
line 'w-entry 0 0 0 0' 16 'an argument is missing'
line 'w-fetch 0 0' 12 'an argument is missing'
line 'window 0' 9 'an argument is missing'
line 'window zero 0' 8 'not a hexadecimal number'
line 'zero 1' 6 'a word after the last argument'
line 'fresh now' 7 'a word after the last argument'
line 'poke 0 g' 8 'not a hexadecimal number'
line '+ 1' 1 'no line of a trace has this name'
line 'ld + 8' 4 'not a hexadecimal number'
line 'ld +-1 8' 4 'not a hexadecimal number'
line 'ld 1_000 8' 4 'not a hexadecimal number'
line 'ld 1.5 8' 4 'not a hexadecimal number'
line 'ld 0,8' 4 'not a hexadecimal number'
line 'ld 0 8;' 6 'not a hexadecimal number'
line 'x x31 0' 3 'no general register'
line 'x x 0' 3 'no general register'
line "$(printf 'tr 1 \302\2400')" 6 'a byte that no line holds'
printf 'tr 1 0\0 1\n' >"$work/bad"
refused 1 ':1:7: a byte that no line holds' run "$work/bad"
printf '\377\376t\0r\0' >"$work/bad"
refused 1 ':1:1: a byte that no line holds' run "$work/bad"
for command in 'run bad' 'reads bad' 'reads bad 3' 'audit bad' 'walk bad 0' 'counters bad' 'census bad 0 1'; do
    printf 'tr 1 0\nreg TCR 0\n' >"$work/bad"
    # shellcheck disable=SC2086
    refused 1 "$work/bad:2:5: neither a hexadecimal number nor a register" $(echo "$command" | sed "s|bad|$work/bad|")
done
ln -s "$work/loop" "$work/loop"
refused 1 'Too many levels of symbolic links' run "$work/loop"
refused 1 'Not a directory' run "$work/bad/"
refused 1 'No such file' run ''

# An option of another command, and options that exclude each other.
refused 2 '--svg is an option of census' audit "$layout" --svg
refused 2 '--svg is an option of census' run --svg "$layout"
refused 2 '--svg is an option of census' reads "$layout" --svg
refused 2 '--short is an option of run' reads "$layout" 3 --short
refused 2 '--all is an option of audit' reads --all "$layout"
refused 2 '--short is an option of run' walk "$layout" 0 --short
refused 2 '--short is an option of run' audit --short "$layout"
refused 2 '--words is an option of run' counters "$layout" --words
refused 2 '--words is an option of run' census "$layout" 0 10 --words
refused 2 '--full is an option of run' audit "$layout" --full
refused 2 '--all is an option of audit' walk --all "$layout" 0
refused 2 '--all is an option of audit' run "$layout" --all
refused 2 '--all is an option of audit' chord --all
refused 2 '--image is an option of the commands that take a TRACE' chord --image "$layout@0"
refused 2 '--image is an option of the commands that take a TRACE' frames 1 --image "$layout@0"
refused 2 '--short is an option of run' frames 1 --short
refused 2 '--words is an option of run' frames 1 --words
refused 2 '--full is an option of run' frames 1 --full
refused 2 '--all is an option of audit' frames 1 --all
refused 2 '--svg is an option of census' frames 1 --svg
refused 2 'run wants --short or --words, and not both' run "$layout" --words --short
refused 2 '--image stands twice' run "$layout" --image "$layout@0" --image "$layout@0"
refused 2 'no such option: --image=x@0' run "$layout" --image=x@0
refused 2 'no such option: --' run -- "$layout"
refused 2 'no such command: aduit (the nearest is audit)' aduit "$layout" --svg
for address in '' 0x -1 0x0x1 10000000000000000 ' 1' 1_0; do refused 1 'ADDRESS: not a hexadecimal number' walk "$layout" "$address"; done
for total in '' +1 -1 1.5 0x10 ff 1_000 ' 1' 18446744073709551616; do refused 1 'TOTAL: not a decimal number of 64 bits' frames "$total"; done
for rate in '' 48 44 48000.0 48000Hz +48000 96000; do refused 1 'the rate is 48000 or 44100 frames a second' frames 1 "$rate"; done
refused 2 'frames wants a TOTAL' frames
refused 2 'frames wants no more than a rate' frames 1 48000 44100
for level in '' -1 0x4 el1 ffffffffffffffff; do refused 1 'LEVEL: 0, 1, 2 or 3' walk "$layout" 0 read "$level"; done
for kind in '' Read exec 1; do refused 1 'read, write or fetch' walk "$layout" 0 "$kind"; done
printf 'tr 1 0\nworse\n' >"$work/bad"
refused 1 ':2:1:' run "$work/bad"
printf '\357\273\277tr 1 0\n' >"$work/bad"
refused 1 ':1:1: a byte order mark' run "$work/bad"
printf 'tr 1 0\rtr 1 1\r' >"$work/bad"
refused 1 ':1:8: a word after the last argument' run "$work/bad"
head -c 70000 /dev/zero | tr '\0' ' ' >"$work/bad"
refused 1 ':1:1: a line of more than 65000 bytes' run "$work/bad"
head -c 5000 /dev/urandom >"$work/bad"
refused 1 "$work/bad:" run "$work/bad"
refused 1 'No such file' run "$work/none"
refused 1 'Is a directory' run "$work"
printf 'fresh\ncount 1\n' >"$work/bad"
refused 1 "$work/bad:2:1: no line of a trace has this name" counters "$work/bad"
refused 1 'No such file' counters "$work/none"
refused 1 'Is a directory' counters "$work"
refused 1 'TRACE: File name too long' counters "$(head -c 5000 /dev/zero | tr '\0' x)"
refused 2 'usage:' counters
refused 2 'counters wants one TRACE' counters "$layout" 1
refused 2 'usage:' counterses "$layout"
refused 2 'reads wants a TRACE, then a number of rows if you like' reads
refused 2 'reads wants no more than a number of rows after TRACE' reads "$layout" 3 4
for rows in '' -1 +3 3a 0x3 ' 3' 3.0 1_0 4294967296; do refused 1 'N: not a decimal number of 32 bits' reads "$layout" "$rows"; done
refused 1 'No such file' reads "$work/none"
refused 1 'Is a directory' reads "$work" 3
refused 2 'no such command: read (the nearest is reads)' read "$layout"
refused 1 'not a hexadecimal number' walk recorded/cases.trace here
refused 1 'LEVEL: 0, 1, 2 or 3' walk recorded/cases.trace 0 read 4
refused 1 'read, write or fetch' walk recorded/cases.trace 0 execute
refused 1 'No such file' walk "$work/none" 0
refused 2 'usage:' run
refused 2 'usage:' run one two
refused 2 'usage:' walk recorded/cases.trace
refused 1 'FIRST: not a hexadecimal number' census "$layout" here 10
refused 1 'PAGES: not a hexadecimal number' census "$layout" 0 1g
refused 1 'PAGES: not a hexadecimal number' census "$layout" 0 10000000000000000
refused 1 'more than 65536 pages (10000 hexadecimal)' census "$layout" 0 10001
refused 1 'more than 65536 pages (10000 hexadecimal)' census "$layout" 0 ffffffffffffffff --svg
refused 1 'the range passes 2^64' census "$layout" ffffffffffffffff 2
refused 1 'LEVEL: 0, 1, 2 or 3' census "$layout" 0 10 4
refused 2 'no such option: --png' census "$layout" 0 10 --png
refused 2 'no such command: runn (the nearest is run)' runn "$layout"
refused 2 'no such command: audti (the nearest is audit)' audti
refused 2 'audit wants one TRACE' audit
refused 2 'audit wants one TRACE' audit "$layout" "$layout"
refused 1 'No such file' audit "$work/none"
refused 1 'Is a directory' audit "$work"
refused 1 '--image wants FILE@ADDRESS' run "$layout" --image
refused 1 '--image wants FILE@ADDRESS' run "$layout" --image here
refused 1 '--image wants FILE@ADDRESS' run "$layout" --image here@0xg
refused 1 'a72: --image: No such file' run "$layout" --image "$work/none@0"
refused 1 'a72: --image: ' run "$layout" --image "$work@0"
refused 1 'No such file' census "$work/none" 0 10 --svg
printf 'level 1\np-level 4\n' >"$work/bad"
refused 1 "the core's level is above 3" census "$work/bad" 0 10
printf 'window fffffffffffff000 2000\n' >"$work/bad"
refused 1 'the window passes 2^64' census "$work/bad" 0 10
refused 2 'usage:' census "$layout" 0
refused 2 'usage:' census "$layout" 0 10 1 2
printf '%s\n' 'tr 1 0' >"$work/good"
mkfifo "$work/pipe" && { cat "$work/good" >"$work/pipe" & }
refused 1 'not a file that can be read twice' run "$work/pipe"
yes | timeout 5 "$tool" run /dev/stdin >"$work/out" 2>"$work/err"
{ [ $? = 1 ] && grep -q 'not a file that can be read twice' "$work/err" && pass; } || fail 'a pipe without an end is refused at once'
refused 1 'an argument is not text in UTF-8' run "$(printf 'a\377')"
"$tool" run "$work/good" >/dev/full 2>"$work/err"
{ [ $? = 1 ] && grep -q '^a72: write: ' "$work/err" && pass; } || fail 'output that cannot be written'
refused 2 'usage:' chord now
refused 2 'usage:' tune
refused 2 'usage:'

# Sample frames beside the same in numbers of any length: edges of a frame, and totals of every length. Leading zeros count for nothing.
if command -v python3 >/dev/null; then
    python3 - >"$work/totals" <<'PYTHON'
edges = [31250 * k + d for k in (1, 2, 48000, 590295810358705) for d in (-1, 0, 1)] + [-(-5000000 * k // 147) + d for k in (1, 2, 44100, 542334275767060) for d in (-1, 0, 1)]
for total in [0, 1, 2**53 - 1, 2**53, 2**64 - 1] + edges + [3**k for k in range(40)]:
    named = lambda n, thing: '%d %s%s' % (n, thing, '' if n == 1 else 's')
    rows = ['%s and %s' % (named(total // 31250, 'frame'), named(total % 31250, 'cycle')), '%s and %d/147 of a cycle' % (named(total * 147 // 5000000, 'frame'), total * 147 % 5000000)]
    print('%d|%s|  48000 a second  %s|  44100 a second  %s' % (total, named(total, 'cycle'), *rows))
PYTHON
    while IFS='|' read -r total head low high; do
        printf '%s\n' "$head" "$low" "$high" >"$work/want"
        "$tool" frames "00$total" 2>&1 | cmp -s - "$work/want" && pass || fail "frames $total"
        printf '%s\n' "$head" "$high" >"$work/want"
        "$tool" frames "$total" 44100 2>&1 | cmp -s - "$work/want" && pass || fail "frames $total 44100"
    done <"$work/totals"
else
    echo 'tool.sh: python3 is missing: sample frames are not compared'
fi

# Help and version, on standard output.
"$tool" help >"$work/help" 2>&1 && grep -q '^usage: a72 run TRACE' "$work/help" && pass || fail help
for word in -h --help 'run -h' 'audit --help' 'census x --help'; do
    # shellcheck disable=SC2086
    "$tool" $word 2>&1 | cmp -s - "$work/help" && pass || fail "$word"
done
[ "$("$tool" --version 2>&1)" = "a72 $(sed -n 's/^version = "\(.*\)"/\1/p' bindings/rust/Cargo.toml)" ] && pass || fail '--version'

# On a terminal the lines are those of a file.
if command -v python3 >/dev/null; then
    "$tool" run recorded/cases.trace >"$work/ours" 2>&1
    on_terminal() { python3 -c 'import pty, sys; pty.spawn(sys.argv[1:])' "$tool" "$@" </dev/null | tr -d '\r'; }
    on_terminal run recorded/cases.trace | cmp -s - "$work/ours" && pass || fail 'lines on a terminal'
    # The map has colours there, and the same letters.
    on_terminal census "$layout" 0 10000 >"$work/coloured"
    "$tool" census "$layout" 0 10000 >"$work/ours" 2>&1
    escape=$(printf '\033')
    grep -q "$escape\[48;5;" "$work/coloured" && sed "s/$escape\[[0-9;]*m//g" "$work/coloured" | cmp -s - "$work/ours" && pass || fail 'the map on a terminal'
fi

# A trace is read as the Rust reads it.
printf '\n  # only a comment\nwindow 0 1000 \t # a comment\ntr +1 00000000000000FF \r\nlevel 1' >"$work/odd"
same "$work/odd" 'spaces, signs, comments'
printf 'level\v1\ntr\f1 40001234\r\n\rlevel 1\n' >"$work/odd"
same "$work/odd" 'white space of ASCII'
printf 'mark 1\nabort data 1000 01 ff\nabort data 1000 0 0\nabort insn 1000 ff\nabort svc ffff\nabort brk 0\n' >"$work/odd"
same "$work/odd" 'flags, statuses and immediates at their ends'
: >"$work/empty"
"$tool" run "$work/empty" >"$work/out" 2>&1 && [ ! -s "$work/out" ] && pass || fail 'an empty trace'

tests/ranges.sh && pass || fail 'tests/ranges.sh'
tests/windows.sh && pass || fail 'tests/windows.sh'
tests/flip.sh && pass || fail 'tests/flip.sh'
tests/cores.sh && pass || fail 'tests/cores.sh'

tests/json.sh && pass || fail 'tests/json.sh'

echo "$good as expected, $bad otherwise"
[ "$bad" -eq 0 ]
