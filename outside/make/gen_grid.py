#!/usr/bin/env python3
"""gen_grid.py: AT for every TxSZ, granule code, output size code and range (EL1&0 lower and upper, EL2, EL3).

Three cases each: the highest address in range behind a leaf, the first out of range, and a table base
one bit beyond the output size.
"""
from lib import WINDOW
from model import pa_bits


def tables(tsz, granule, va):
    """The words of a walk of va that ends in the first leaf allowed, the base and its own size in bytes."""
    input_size, stride = 64 - min(max(tsz, 16), 39), granule - 3
    start = 4 - -(-(input_size - granule) // stride)
    first_bits = input_size - (granule + stride * (3 - start))
    size = 8 << first_bits
    base = WINDOW + max(size, 16) * (1 if size > 4096 else 3)
    words, table, level = [], base, start
    while True:
        lsb = granule + stride * (3 - level)
        addr = table + ((va >> lsb & (1 << (first_bits if level == start else stride)) - 1) << 3)
        if level >= 2 or level == 1 and granule == 12:
            words.append((addr, 0xFFFFF000 & ~((1 << lsb) - 1) | 0x701 | (2 if level == 3 else 0)))
            return words, base, size
        table = WINDOW + 0x20000 + 0x10000 * (level & 1)
        words.append((addr, table | 3))
        level += 1


def grid():
    for which in ("lower", "upper", "el2", "el3"):
        for tsz in range(64):
            for code in range(4):
                for ps in range(8):
                    yield from cases(which, tsz, code, ps)


def cases(which, tsz, code, ps):
    granule = 16 if code == (3 if which == "upper" else 1) else 12
    input_size = 64 - min(max(tsz, 16), 39)
    lowest_out = (1 << 64) - (1 << input_size) - 1 if which == "upper" else 1 << input_size
    highest_in = (1 << 64) - 1 if which == "upper" else (1 << input_size) - 1
    words, base, size = tables(tsz, granule, highest_in)
    base |= size - 1 & 0xFFFE                              # bits below the table's alignment
    text = " ".join("%x:%x" % w for w in words)
    for va, ttbr in ((highest_in, base), (lowest_out, base), (highest_in, base | 1 << pa_bits(ps))):
        if which == "lower":
            regs = "s1e1r scr=430 hcr=80000000 sctlr=30d00801 tcr=%x ttbr0=%x ttbr1=0" % (
                tsz | code << 14 | 25 << 16 | 2 << 30 | ps << 32, ttbr)
        elif which == "upper":
            regs = "s1e1r scr=430 hcr=80000000 sctlr=30d00801 tcr=%x ttbr0=0 ttbr1=%x" % (
                25 | tsz << 16 | code << 30 | ps << 32, ttbr)
        else:
            regs = "s1e%sr scr=431 hcr=80000000 sctlr=30c50831 tcr=%x ttbr0=%x" % (
                which[2], tsz | code << 14 | ps << 16, ttbr)
        yield "%s mair=ff va=%x %s" % (regs, va, text)


if __name__ == "__main__":
    for line in grid():
        print(line)
