#!/usr/bin/env python3
"""gen_at.py SEED N: N random AT cases on standard output, each with tables that lead somewhere."""
import random
import sys

from lib import AT_NAMES, WINDOW, WINDOW_LEN
from model import M48, pa_bits

# Outside RAM on both sides.
ABROAD = [0x80000000, 0x90000000, 0xC0000000, 0xFFFF0000]
RES1 = {1: 0x30D00800, 2: 0x30C50830, 3: 0x30C50830}
TGE, DC = 1 << 27, 1 << 12


def upper_attributes(r):
    """Random bits 48..63 of a descriptor, the unused ones rare."""
    chances = {63: .2, 62: .15, 61: .15, 60: .15, 59: .15, 58: .1, 57: .1, 56: .1, 55: .1, 54: .3, 53: .3,
               52: .05, 51: .03, 50: .02, 49: .02, 48: .02}
    value = 0
    for bit, chance in chances.items():
        if r.random() < chance:
            value |= 1 << bit
    return value


def random_hcr(r, op):
    hcr = 1 << 31
    if r.random() < .06 and op < 4:
        hcr |= r.choice([TGE, DC, TGE | DC])
    elif r.random() < .05:
        hcr |= TGE
    return hcr


def granule_code(r, granule, upper):
    """TG0 or TG1 for a granule; 4 KiB sometimes by a reserved or 16 KiB code."""
    if granule == 16:
        return 3 if upper else 1
    if r.random() < .2:
        return r.choice([0, 1] if upper else [2, 3])
    return 2 if upper else 0


def random_tsz(r):
    return r.randint(16, 39) if r.random() < .88 else r.randint(0, 63)


def random_address(r, input_size, upper, tbi):
    va = r.getrandbits(input_size)
    k = r.random()
    if k < .15:
        va &= ~0xFFF
    elif k < .25:
        va = (1 << input_size) - 1 - r.getrandbits(12)
    elif k < .3:
        va = r.getrandbits(12)
    if upper:
        va |= (1 << 64) - (1 << input_size)
    if r.random() < (.6 if tbi else .03):
        va ^= r.getrandbits(8) << 56
    if r.random() < .04:
        va ^= 1 << r.randint(input_size, 63)               # one bit out of range
    return va


class Tables:
    """Random tables for one address: `words` maps the addresses of its descriptors to their values."""

    def __init__(self, r, va, granule, input_size, output_size):
        self.r, self.va, self.granule, self.output_size = r, va, granule, output_size
        self.stride = granule - 3
        self.start = 4 - -(-(input_size - granule) // self.stride)
        self.first_bits = input_size - self.lsb(self.start)
        self.slots = list(range(3))
        r.shuffle(self.slots)
        self.pages = r.sample(range(0, 48), 4)
        self.words = {}
        self.base = self.place(self.start, 8 << self.first_bits)

    def lsb(self, level):
        return self.granule + self.stride * (3 - level)

    def place(self, level, size):
        """Where a level's table stands: in the window, sometimes abroad or beyond the output size."""
        r = self.r
        if r.random() < .04:
            addr = r.choice(ABROAD)
        elif self.granule == 16 or size > 4096:
            addr = WINDOW + 0x10000 * self.slots[level % 3]
        else:
            addr = WINDOW + 0x1000 * self.pages[level]
            if size < 4096:
                addr += r.randrange(0, 4096, max(size, 16))
        if r.random() < .05 and self.output_size < 48:
            addr |= 1 << r.randint(self.output_size, 47)
        elif r.random() < .03:
            addr |= 1 << r.randint(32, 43)
        return addr

    def leaf(self, level):
        r = self.r
        if r.random() < .95:
            oa = r.getrandbits(min(self.output_size, 44))
            if r.random() < .05 and self.output_size < 48:
                oa |= 1 << r.randint(self.output_size, 47)
        else:
            oa = r.getrandbits(48)
        oa &= ~((1 << (12 if r.random() < .1 else self.lsb(level))) - 1)
        d = upper_attributes(r) | oa | r.getrandbits(10) << 2 | 1 | (2 if level == 3 else 0)
        d = d & ~0x400 if r.random() < .08 else d | 0x400
        if r.random() < .03:
            d ^= 2                                         # reserved at level 3, a table elsewhere
            if level < 3:
                d = d & ~(M48 & ~0xFFF) | r.choice(ABROAD)
        return d

    def table(self, level):
        """A table descriptor and the place of the next table."""
        r = self.r
        following = self.place(level + 1, 8 << self.stride)
        d = upper_attributes(r) & (0xFFF << 52 | 7 << 48) | following | 3
        if r.random() < .5:
            d |= r.getrandbits(12) & 0xFFC
        if self.granule == 16 and r.random() < .1:
            d |= r.getrandbits(4) << 12
        return d, following

    def fill(self):
        r, level = self.r, self.start
        table = self.base & ~((8 << self.first_bits) - 1)
        while True:
            width = self.first_bits if level == self.start else self.stride
            addr = table + ((self.va >> self.lsb(level) & (1 << width) - 1) << 3)
            k, following = r.random(), None
            if level < 3 and k < (.72 if level != 2 else .6):
                d, following = self.table(level)
            elif k < .94:
                d = self.leaf(level)
            else:
                d = r.getrandbits(64) & ~1
            if WINDOW <= addr < WINDOW + WINDOW_LEN:
                self.words[addr] = d
            if following is None or (following & M48) >> self.output_size:
                return
            table, level = following & M48 & ~((1 << self.granule) - 1), level + 1
            if not WINDOW <= table < WINDOW + WINDOW_LEN and table >> 30 == 1:
                return                                     # QEMU's RAM outside the window


def random_mair(r):
    """The usual kinds, and any byte."""
    mair = 0
    for i in range(8):
        usual = r.random() < .7
        byte = r.choice([0x00, 0x04, 0x0C, 0x44, 0xFF, 0xBB, 0x4F, 0x08]) if usual else r.getrandbits(8)
        mair |= byte << 8 * i
    return mair


def case(r):
    op = r.choices(range(12), [10, 10, 10, 10, 3, 3, 3, 3, 9, 9, 6, 6])[0]
    regime = 1 if op < 8 else 2 if op < 10 else 3
    scr = 0x430 | (r.random() < (.95 if regime == 2 else .5))
    hcr = random_hcr(r, op)
    sctlr = RES1[regime] | (r.random() < .95) | (r.random() < .3) << 19 | (r.random() < .5) << 2 | (r.random() < .5) << 12
    upper = regime == 1 and r.random() < .45
    granule = 16 if r.random() < .4 else 12
    tsz = [random_tsz(r), random_tsz(r)]
    granules = [r.choice([12, 16]), r.choice([12, 16])]
    granules[upper] = granule
    ps = r.choices(range(8), [3, 2, 2, 2, 3, 1, 1, 1])[0]
    epd = [r.random() < .06, r.random() < .06]
    tbi = [r.random() < .3, r.random() < .3]
    tcr = tsz[0] | r.getrandbits(6) << 8 | granule_code(r, granules[0], False) << 14
    if regime == 1:
        tcr |= epd[0] << 7 | tsz[1] << 16 | r.getrandbits(1) << 22 | epd[1] << 23 | r.getrandbits(6) << 24
        tcr |= granule_code(r, granules[1], True) << 30 | ps << 32 | r.getrandbits(1) << 36 | tbi[0] << 37 | tbi[1] << 38
    else:
        tcr |= ps << 16 | tbi[0] << 20
    input_size = 64 - min(max(tsz[upper], 16), 39)
    va = random_address(r, input_size, upper, tbi[upper])
    tables = Tables(r, va, granule, input_size, pa_bits(ps))
    base = tables.base
    if r.random() < .2:
        base |= r.getrandbits(12) & (8 << tables.first_bits) - 1       # bits below the table's alignment
    tables.fill()
    bases = [r.getrandbits(48) & ~0xFFF, r.getrandbits(48) & ~0xFFF]
    bases[upper] = base
    if regime == 1:
        bases = [b | r.getrandbits(16) << 48 for b in bases]
    else:
        bases[1] = 0
    words = tables.words
    if regime < 3 and r.random() < .02:                    # big-endian tables
        sctlr |= 1 << 25
        if r.random() < .8:
            words = {a: int.from_bytes(d.to_bytes(8, "little"), "big") for a, d in words.items()}
        else:
            words = {a: d & ~(1 << 56) for a, d in words.items()}      # invalid when swapped
    if r.random() < .03:                                   # HPD0, HPD1, HPD
        tcr |= r.choice([1, 2, 3]) << 41 if regime == 1 else 1 << 24
    return "%s scr=%x hcr=%x sctlr=%x tcr=%x ttbr0=%x ttbr1=%x mair=%x va=%x %s" % (
        AT_NAMES[op], scr, hcr, sctlr, tcr, bases[0], bases[1], random_mair(r), va, " ".join("%x:%x" % w for w in words.items()))


if __name__ == "__main__":
    chance = random.Random(int(sys.argv[1]))
    for _ in range(int(sys.argv[2])):
        print(case(chance).rstrip())
