#!/bin/sh
# Writes ../docs/BENCHMARKS.md: builds `bench` with the library lib$A72_NAME.a of the folder $A72_LIB, counts instructions, times all
# cases and reads the frames; some minutes. NOTE is a sentence about the run.
#   A72_LIB=/absolute/path/target/staticlib A72_NAME=a72abi ./benchmarks.sh
set -eu
cd "$(dirname "$0")"
work=$(mktemp -d)
trap 'rm -r "$work"' EXIT

cargo build --offline --release -j1 --features harness/rattle --target-dir target-rattle
bench=target-rattle/release/bench
./ir.sh $bench "$work/counts" >/dev/null
$bench time 900 --counts "$work/counts" >"$work/table"
SIDE=plain ./ir.sh $bench "$work/plain-counts" >/dev/null
./links.sh 80 --counts "$work/plain-counts" >"$work/plain-table"
./stack.sh "$A72_LIB/lib$A72_NAME.a" >"$work/frames"
${CC:-cc} -O2 -I../include steps.c "$A72_LIB/lib$A72_NAME.a" -o "$work/steps"
"$work/steps" >"$work/stepped"

# FIELD of the line of `frames` where it is the greatest: bytes, then the function.
most() {
    sort -k"$1","$1"rn "$work/frames" | awk -v f="$1" 'NR == 1 { print $f " bytes (`" $3 "`)" }'
}

# What stands at the end, measured apart.
kept=$(sed -n '/^## Before there was a handle/,$p' ../docs/BENCHMARKS.md)
machine=$(sed -n 's/^model name[^:]*: //p' /proc/cpuinfo | head -n 1)
{
    cat <<'TEXT'
# Benchmarks

pimu's Rust and the static library `liba72abi.a` in one process, on the same inputs: nanoseconds a call, the least of many runs, and
instructions a call. A ratio is the library's number by the Rust's.

## What is called

On the Rust's side pimu's own function, behind one call that is not inlined, with RAM as a slice at its quickest (one test of the window, then
a load or store of the size). The checks 1 to 7 are not made there: pimu has none; of windows the list is read, and so 9 is. A register write is `write_reg` with the scope's
rule. On the library's side the exported function on a core behind its handle, with its checks.

So the library does more: it checks level, window, kind, size and range, and takes and gives numbers. For translations, loads, stores, censuses, lists of windows and flipped bits a third column has
the *checked Rust*: the same function of pimu behind the library's own signature, with the same checks before it (`oracle/harness/src/bench/checked.rs`).
That is what a caller of the Rust would have to write for the same promise, and the ratio beside it is that of equal work. The bars are held to
the bare function all the same.

Before a case is timed both sides make 2,016 calls of it (of a census one, of long lists of windows six), and answers, whole state and RAM are compared after each of 63 runs of them; again at the
end. One argument of each call alternates between two values, so that a case stays what its name says:

| Case | How it stays so |
|---|---|
| hint hit | two addresses of one page |
| entry hit | reads and writes: two pages whose hints share a place, so that each takes the other's; a translation for a fetch asks no hint |
| walk | two pages whose entries and hints share a place; 2 levels end in a block of 2 MiB, 3 and 4 in a page |
| permission fault | at EL0, on pages of EL1: a fault leaves no hint, so the entry answers; 'walk': two pages of one entry |
| translation fault | the last table is empty, so no entry is ever made |
| split | eight bytes cut in the middle and after seven, two bytes cut in the middle; both pages' hints serve |
| TLBI | 1,024 live entries at the start |
| lent | the translations of the same names again, under the bars of a core that was lent by reference inside the library |
| census | 65,536 pages, from two addresses of one page; the Rust's side is a loop over `stage1_on`, `untag` and `walk` page by page into 129 counts; times and instructions are those of one page |
| windows | 64 windows of sixteen pages, 1,024 pages by three tables and 516,096 comparisons; all apart, or the last window the first one again; sixteen windows of one page; each list there and turned round. The Rust's side is a list's bytes, `stage1_on`, `untag` and `walk` page by page and the permission bit, and then each pair in the same form as here, a page looked for up to a window's end (`oracle/harness/src/rust/windows.rs`): pimu has no such function. By std's `contains`, which ends at the page, it took 283 µs in a build in which the library took 188, and 158 in one in which no jump lies over a boundary of 32 bytes |
| flip | two addresses of one page, a privileged read. None: a zero descriptor at level 0, of which all 64 bits are tried, 65 walks of one descriptor. Bit 0: a page by three tables, walked once, and once more without the first. The Rust's side is `stage1_on`, `untag` and `walk` and the permission bit around a bit that is flipped in RAM and back, over the descriptors that pimu's walk read (`oracle/harness/src/rust/flip.rs`): pimu has no such function |
| frames | a total of hours, and the largest of all; the Rust's side is one function of rate and total, by a product of 128 bits, divided, and what that leaves (`bench/rust.rs`): pimu has no such function. A function of 48,000 a second alone is compiled to a division of 64 bits: 1.94 ns in a run in which the library took 2.58 |
| four cores | a cluster, its cores alike; calls go to core 1. The Rust's side is four of pimu's cores in an array under the rule: the number is tested, the call made, and where it left something pending and was not refused, `broadcast.take()` and `invalidate` on the other three (`oracle/harness/src/bench/four.rs`). A TLBI is VAE1IS or VMALLE1IS, with 1,024 live entries in each core at the start |
| register write | TCR_EL1 between two values; TTBR0_EL1 between two ASIDs; VBAR_EL1; SCTLR_EL1 to what it is |

The bars: hint hits 1.05, on `fetch_pa` 1.5; entry hits of translate, data_pa and fetch_pa 1.1, of load, store and fetch 1.15; walks and faults of translations 1.05; stage 1 off 1.15; split accesses,
TLBI, register writes and settings 1.2; DC ZVA 1.0; abort entry 1.6; the census 0.95; sample frames 1.0; four cores 1.1 by a hint and 1.2 of a TLBI; lists of 64 windows 1.1; flipped bits 1.1, and 10 µs where none is found; on a lent core hint hit 1.3, entry hit 1.2, walks 0.95. The other cases have none. Until November 2026 hint hits
had 0.95 (translations) and 1.0 (loads and stores), entry hits of translations 1.05, a lent core 1.5, 1.8 and 1.5, and fetch, data_pa, DC ZVA, abort entry and settings none.

## How it was run

    tools/build a72abi
    cd oracle
    A72_LIB=$PWD/../target/staticlib A72_NAME=a72abi ./benchmarks.sh

builds `bench` with the library, counts instructions (`ir.sh`: valgrind's callgrind, two runs of different length for each case and side), runs
`bench time 900` in a thread of 2 MiB of stack, reads the frames (`stack.sh`) and writes this file. 900 runs of each side in turn, in six passes over
all cases, each run of about 40 µs (of a census and of long lists of windows a tenth as many runs, of two calls or a few); the time of no call is subtracted. A call takes whole cycles, so that small ratios move in steps.
TEXT
    echo
    echo "This run: $(date -u +%F), $(nproc) cores, shared, $machine.${NOTE:+ $NOTE}"
    echo
    echo "## Times and instructions"
    echo
    sed '/^$/,$d' "$work/table"
    echo
    echo "$(tail -n 1 "$work/table")."
    echo
    echo "Four cores beside one, in the library: by a hint the number of the core, its place and one test of what is pending come to a call's instructions; a TLBI is carried out four times.
Counted are the instructions of the function alone, by single steps (\`oracle/steps.c\`); a row of the table above has the loop around the call too, which hands over an argument more."
    echo
    awk -f four.awk "$work/table" "$work/stepped"
    echo
    ./plain-section.sh "$work/plain-table"
    echo
    echo "## Stack"
    echo
    echo "The deepest frame takes $(most 1), the deepest chain of calls $(most 2): pushes, the stack pointer's"
    echo "step and the return address of each function, summed along the calls. There is no recursion. All of the above ran in a thread of 2 MiB."
    [ -z "$kept" ] || printf '\n%s\n' "$kept"
} >../docs/BENCHMARKS.md
tail -n 1 "$work/table"
