#!/bin/sh
# `a72 windows`: its last line and its status on lists that are written by hand; each way in which a list is wrong; the level and the regime; and the same lists in a trace, by `bytes` and `win`.
# Wants target/bin/a72 (tools/build a72) and python3. Its last line is 'N as expected, M otherwise'.
set -u
cd "$(dirname "$0")/.." || exit 1
tool=./a72
[ -x target/bin/a72 ] || { echo "windows.sh: target/bin/a72 is missing: ./run or tools/build a72 makes it"; exit 1; }
command -v python3 >/dev/null || { echo 'windows.sh: python3 is missing: lists of windows are not tested'; exit 0; }
work=$(mktemp -d) || exit 1
trap 'rm -rf "$work"' EXIT
good=0
bad=0
pass() { good=$((good + 1)); }
fail() { bad=$((bad + 1)); echo "differs: $1"; }

# list FIRST:PAGES ..: the list of these windows, FIRST hexadecimal, PAGES decimal; and `list_of_bytes HEX`.
list() { python3 -c 'import struct, sys; w = [a.split(":") for a in sys.argv[1:]]; sys.stdout.buffer.write(struct.pack("<H", len(w)) + b"".join(struct.pack("<Q", int(a, 16)) for a, _ in w) + b"".join(struct.pack("<H", int(n)) for _, n in w))' "$@" >"$work/list"; }
list_of_bytes() { python3 -c 'import sys; sys.stdout.buffer.write(bytes.fromhex(sys.argv[1]))' "$1" >"$work/list"; }

# says STATUS LINE ANSWER TRACE: the last line is LINE, and the list in a trace is answered ANSWER, by the same trace and `bytes` lines of one to three bytes.
says() {
    "$tool" windows "$4" "$work/list" >"$work/out" 2>"$work/err"
    got=$?
    if [ "$got" = "$1" ] && [ "$(cat "$work/out" "$work/err" | tail -n 1)" = "$2" ]; then pass; else fail "windows $4: status $got, $(cat "$work/out" "$work/err" | tail -n 1), not '$2'"; fi
    { cat "$4"; python3 -c 'import sys; b = open(sys.argv[1], "rb").read().hex()
while b: n = 2 + 2 * (len(b) % 3); print("bytes", b[:n]); b = b[n:]' "$work/list"; echo win; } >"$work/trace"
    told=$("$tool" run "$work/trace" --short | tail -n 1 | sed 's/.* => //')
    [ "$told" = "$3" ] && pass || fail "win of '$2': $told, not $3"
}

regimes=tests/regimes.trace
list
says 0 'no two of 0 windows share a page' none $regimes
list 100000:1
says 0 'no two of 1 windows share a page' none $regimes
list 200000:16 100000:1
says 0 'no two of 2 windows share a page' none $regimes
# An alias in a block of 1 GiB; a window over another; the lower number first, then the higher; the last page of one and the first of the other.
list 200000:16 100000:1 8002f000:3
says 1 'windows 1 and 2 share the physical page 40030000 (page 0 of 1, page 1 of 2)' 'pair 1 2' $regimes
list 200000:16 204000:16
says 1 'windows 0 and 1 share the physical page 4020f000 (page 15 of 0, page 11 of 1)' 'pair 0 1' $regimes
list 100000:1 210000:1 220000:1 220000:1 210000:1 80030000:1
says 1 'windows 0 and 5 share the physical page 40030000 (page 0 of 0, page 0 of 5)' 'pair 0 5' $regimes
list 220000:2 221000:1 220000:1
says 1 'windows 0 and 1 share the physical page 40221000 (page 1 of 0, page 0 of 1)' 'pair 0 1' $regimes
# A tag is no part of a page's address; 64 windows of 16 pages, all apart, and the last two that meet.
list 200000:1 ab00000000200000:1
says 1 'windows 0 and 1 share the physical page 40200000 (page 0 of 0, page 0 of 1)' 'pair 0 1' $regimes
# shellcheck disable=SC2046
list $(for i in $(seq 0 63); do printf '%x:16 ' $((0x80000000 + i * 65536)); done)
says 0 'no two of 64 windows share a page' none $regimes
# shellcheck disable=SC2046
list $(for i in $(seq 0 62); do printf '%x:16 ' $((0x80000000 + i * 65536)); done) 803ef000:16
says 1 'windows 62 and 63 share the physical page 403ef000 (page 15 of 62, page 0 of 63)' 'pair 3e 3f' $regimes
# A fault wins over a pair that stands before it; the first window, then the first page.
list 200000:1 200000:1 100000:2 400000:1
says 1 'window 2, page 1 (0000000000101000): permission fault, level 3 (0x0f)' 'page 2 1 0f' $regimes
list 200000:1 fffffffffffff000:1
says 1 'window 1, page 0 (fffffffffffff000): translation fault, level 2 (0x06)' 'page 1 0 06' $regimes
# heads LEVEL REGIME: the first line names the level and its regime.
heads() {
    echo "level $1" >"$work/level"
    "$tool" windows "$work/level" "$work/list" >"$work/out" 2>&1
    [ "$(head -n 1 "$work/out")" = "1 window at EL$1, for a privileged write: the regime is $2" ] && pass || fail "the first line at EL$1"
}
list 1000:1
heads 0 'EL1&0'
heads 1 'EL1&0'
heads 2 EL2
heads 3 EL3
# Stage 1 off: a page is its own; a level above 3; RAM that passes 2^64.
echo 'level 1' >"$work/flat"
list 1000:2 3000:1 2000:1
says 1 'windows 0 and 2 share the physical page 2000 (page 1 of 0, page 0 of 2)' 'pair 0 2' "$work/flat"
list fffffffffff000:1
says 1 'window 0, page 0 (00fffffffffff000): address size fault, level 0 (0x00)' 'page 0 0 00' "$work/flat"
printf 'level 1\np-level 4\n' >"$work/high"
list 100000:17
says 1 "a72: the core's level is above 3" 'no 1' "$work/high"
echo 'window fffffffffffff000 2000' >"$work/past"
says 1 'a72: the window of RAM passes 2^64' 'no 2' "$work/past"

# wrong TEXT: the list is refused at a byte, and nothing is shown.
wrong() {
    says 1 "a72: $work/list: $1" 'no 9' $regimes
    [ ! -s "$work/out" ] && pass || fail "something is shown of a list with $1"
}
list_of_bytes ''
wrong 'byte 0: bytes in all: 0, not 2'
list_of_bytes 01
wrong 'byte 1: bytes in all: 1, not 2'
list_of_bytes 0200000010000000000000
wrong 'byte 11: bytes in all: 11, not 22'
list_of_bytes 01000000100000000000010000
wrong 'byte 13: bytes in all: 13, not 12'
list_of_bytes 4100
wrong 'byte 0: 65 windows, at most 64 are allowed'
list 100000:1 100800:1
wrong 'byte 10: window 1 starts at 0000000000100800, not on a page of 4 KiB'
list 100000:1 200000:0
wrong 'byte 20: window 1 has no page, at least 1 is wanted'
list 100000:17
wrong 'byte 10: window 0 has 17 pages, at most 16 are allowed'
list 100000:1 fffffffffffff000:2
wrong 'byte 10: window 1 starts at fffffffffffff000, and its 2 pages pass 2^64'

# refused STATUS TEXT ARGUMENTS..
refused() {
    status=$1
    text=$2
    shift 2
    "$tool" "$@" >"$work/out" 2>"$work/err"
    { [ $? = "$status" ] && [ ! -s "$work/out" ] && grep -qF -- "$text" "$work/err" && pass; } || fail "$*: not $status, $text"
}
list 100000:1
refused 2 'windows wants a TRACE and a LIST' windows
refused 2 'windows wants a TRACE and a LIST' windows $regimes
refused 2 'windows wants a TRACE and a LIST' windows $regimes "$work/list" 1
refused 1 "a72: $work/none: No such file or directory" windows $regimes "$work/none"
refused 1 "a72: $work/none: No such file or directory" windows "$work/none" "$work/list"
refused 2 '--svg is an option of census' windows $regimes "$work/list" --svg
head -c 65537 /dev/zero >"$work/long"
refused 1 "a72: $work/long: a list of more than 10000 bytes (64 KiB)" windows $regimes "$work/long"
head -c 65536 /dev/zero >"$work/long"
refused 1 "a72: $work/long: byte 65536: bytes in all: 65536, not 2" windows $regimes "$work/long"

# The bytes of a trace: two digits each, 1,024 in a line, 65,536 in all; `win` takes them, and `fresh` leaves them.
thousand=$(printf '%02048d' 0)
bytes() { printf '%s\n' "$2" >"$work/trace" && refused 1 "a72: $work/trace:$1" run "$work/trace"; }
bytes '1:7: an odd number of digits: a byte has two' 'bytes 123'
bytes '1:8: not a hexadecimal digit' 'bytes 1g'
bytes '1:6: an argument is missing' 'bytes'
bytes '1:10: a word after the last argument' 'bytes 12 34'
bytes '1:7: more than 400 bytes (1024) in one line' "bytes ${thousand}00"
for i in $(seq 1 64); do echo "bytes $thousand"; done >"$work/most"
(cat "$work/most"; echo win; cat "$work/most"; echo fresh; echo win; echo win; echo 'bytes 0000'; echo win) >"$work/trace"
[ "$("$tool" run "$work/trace" --short | sed 's/.* => //' | tr '\n' ' ')" = 'no 9 no 9 no 9 none ' ] && pass || fail 'lists of 65,536 bytes'
(echo 'level 1'; cat "$work/most"; echo 'bytes 00') >"$work/trace"
refused 1 "a72: $work/trace:66:7: a list of more than 10000 bytes (64 KiB)" run "$work/trace"

echo "$good as expected, $bad otherwise"
[ "$bad" -eq 0 ]
