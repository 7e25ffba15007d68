#!/bin/sh
# Compile the guest into build/guest.elf. Needs aarch64-linux-gnu-gcc (Debian: gcc-aarch64-linux-gnu), or CROSS.
set -eu
cd "$(dirname "$0")"
mkdir -p build
"${CROSS:-aarch64-linux-gnu-}gcc" -O1 -Wall -ffreestanding -nostdlib -static -mgeneral-regs-only -mstrict-align \
    -fno-pic -fno-builtin -fno-stack-protector -Wno-main -Wl,--build-id=none,--no-warn-rwx-segments \
    -T guest/link.ld guest/start.S guest/main.c -o build/guest.elf
