#!/bin/sh
# Build the guest, run every suite in QEMU and on the Rust, print the tables, and make the recorded sample anew in
# build/sample. Two minutes. Needs qemu-system-aarch64 and aarch64-linux-gnu-gcc (Debian: qemu-system-arm and
# gcc-aarch64-linux-gnu), Python 3, and the oracle's `run` (oracle/README.md), or ORACLE naming it.
#   SEED (7), N_AT (40000), N_ACCESS (20000): the random cases. QEMU: the emulator.
set -eu
cd "$(dirname "$0")"
: "${N_AT:=40000}" "${N_ACCESS:=20000}" "${SEED:=7}"
./build.sh
mkdir -p build/full build/sample
"${QEMU:-qemu-system-aarch64}" --version | head -n 1
echo "== AT, random"
python3 gen_at.py "$SEED" "$N_AT" >build/at.in
python3 compare.py at build/at.in -o build/full/at.txt
echo "== AT, every TxSZ, granule code, output size and range"
python3 gen_grid.py >build/grid.in
python3 compare.py at build/grid.in
echo "== accesses, random"
python3 gen_access.py "$SEED" "$N_ACCESS" >build/access.in
python3 compare.py access build/access.in -o build/full/access.txt
echo "== accesses, every permission bit"
python3 gen_perm.py >build/perm.in
python3 compare.py access build/perm.in -o build/full/perm.txt
echo "== exceptions"
python3 gen_entry.py >build/entry.in
python3 compare.py entry build/entry.in -o build/full/entry.txt
echo "== single inputs"
python3 compare.py single departures.in -o build/full/departures.txt
echo "== registers"
python3 compare.py registers
echo "== the sample"
python3 sample.py build/full build/sample
python3 sample.py --counts build/sample
python3 replay.py build/sample/*.txt
python3 mutants.py build/sample/at.txt
