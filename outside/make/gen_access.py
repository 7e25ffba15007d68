#!/usr/bin/env python3
"""gen_access.py SEED N: N random accesses (loads, stores, LDTR, STTR, fetches, DC ZVA, AT) at EL0 to EL3 on standard output."""
import random
import sys

from gen_at import ABROAD, upper_attributes
from lib import OWN_TABLE, PERM_WORD, WINDOW, WINDOW_LEN
from model import M48, pa_bits

AT_EL1 = ["s1e1r", "s1e1w", "s1e0r", "s1e0w"]
AT_S12 = ["s12e1r", "s12e1w", "s12e0r", "s12e0w"]
LEVEL_TOO_LOW = ["s1e1r@0", "s12e1r@1", "s1e2r@1", "s1e3r@1", "s1e3w@2"]
LOWER_KINDS = (["ld@0", "st@0", "if@0", "ld@1", "st@1", "if@1", "ldt@1", "stt@1"] * 6 + ["zva@0", "zva@1"] * 3
               + [op + "@1" for op in AT_EL1] * 2 + [op + "@2" for op in AT_EL1 + AT_S12] + LEVEL_TOO_LOW)
EL2_KINDS = ["ld@2", "st@2", "if@2"] * 3 + ["ldt@2", "stt@2", "zva@2", "s1e2r@2", "s1e2w@2"]
EL3_KINDS = ["ld@3", "st@3", "if@3"]


class Access:
    """One case. The regime under test is `one_range` (EL2's or EL3's) or EL1&0's range `upper`; the guest's own
    code lies in the other range, at EL2 in the second GiB, at EL3 in the TLB."""

    def __init__(self, r):
        self.r = r
        self.one_range = r.random() < .3
        self.el3 = self.one_range and r.random() < .4
        self.el2 = self.one_range and not self.el3
        self.kind = r.choice(EL3_KINDS if self.el3 else EL2_KINDS if self.el2 else LOWER_KINDS)
        self.fetch = self.kind.startswith("if")
        self.upper = not self.one_range and r.random() < .5
        self.on = self.el3 or r.random() < .97
        self.tge = self.kind.endswith("@0") and r.random() < .05
        if (self.tge or not self.on) and not self.one_range:
            self.upper = True                              # the code runs at its physical address either way
        self.ns = self.el2 or self.tge or self.kind.endswith("@2") or r.random() < .5
        self.shape()
        self.address()
        self.tables()

    def shape(self):
        """Granule, sizes, and the registers that say so."""
        r = self.r
        self.granule = 16 if r.random() < .4 and not self.el2 else 12
        tsz = 25 if self.el2 else r.randint(16, 39) if r.random() < .96 else r.randint(0, 63)
        ps = r.choices(range(8), [3, 2, 2, 2, 3, 1, 1, 1])[0]
        self.tbi, epd = r.random() < .3, r.random() < .03
        self.sctlr = (0x30C50830 if self.one_range else 0x30D04800) | self.on | (r.random() < .35) << 19 | 1 << 2 | 1 << 12
        large = self.granule == 16
        if self.one_range:
            self.tcr = tsz | large << 14 | ps << 16 | self.tbi << 20
        elif self.upper:
            self.tcr = 25 | tsz << 16 | epd << 23 | (3 if large else 2) << 30 | ps << 32 | self.tbi << 38
        else:
            self.tcr = tsz | epd << 7 | large << 14 | 25 << 16 | 2 << 30 | ps << 32 | self.tbi << 37
        self.input_size = 64 - min(max(tsz, 16), 39)
        self.output_size = pa_bits(ps)
        self.stride = self.granule - 3
        self.start = 4 - -(-(self.input_size - self.granule) // self.stride)
        self.first_bits = self.input_size - self.lsb(self.start)

    def lsb(self, level):
        return self.granule + self.stride * (3 - level)

    def address(self):
        """The address, and `final`, the physical one that its tables mostly lead to."""
        r = self.r
        self.leaf = r.choice([l for l in ([1, 2, 3] if self.granule == 12 else [2, 3]) if l >= self.start])
        offset = r.randrange(0, 0x10000, 8)
        if not self.fetch and r.random() < .12:
            offset = offset & 0xF000 | r.randint(0xFF9, 0xFFF)         # over a page's end
        elif self.fetch and r.random() < .5:
            offset |= 4
        final = 0x7FFF0000 + offset
        mask = (1 << self.lsb(self.leaf)) - 1
        va = r.getrandbits(self.input_size) & ~mask | final & mask
        if self.el2 and va >> 30 & 0x1FF == 1:
            va ^= 2 << 30                                  # not the guest's own GiB
        if self.upper:
            va |= (1 << 64) - (1 << self.input_size)
        if not self.on:
            va = r.choice([final, 0x80000000 + (offset & ~3)]) if self.fetch else r.choice(
                [final, 0x80000000 + offset, 0x123480000000 + offset, 0xFF00000000000000 + final, 1 << 44 | final])
        elif self.tbi and r.random() < (.03 if self.fetch else .4):
            va ^= r.getrandbits(8) << 56
        elif r.random() < .03:
            va ^= 1 << r.randint(self.input_size, 54)
        if va + 8 >> 64 and offset & 7:                    # the next byte would be the other range's
            va, offset, final = va & ~7, offset & ~7, final & ~7
        self.va, self.offset, self.final = va, offset, final

    def place(self, level, size):
        r, first = self.r, self.one_range and level == self.start
        if r.random() < .02 and not first:
            addr = r.choice(ABROAD)
        elif self.granule == 16 or size > 4096:
            addr = WINDOW + 0x10000 * self.slots[level % 3]
        else:
            addr = WINDOW + 0x1000 * self.pages[level]
        if self.granule == 12 and size < 4096:
            addr += r.randrange(0, 4096, max(size, 16))
        if r.random() < .02 and self.output_size < 48 and not first:
            addr |= 1 << r.randint(self.output_size, 47)
        return addr

    def leaf_descriptor(self, level):
        r = self.r
        oa = self.final if r.random() < .92 else r.choice(ABROAD)
        if r.random() < .03 and self.output_size < 48:
            oa |= 1 << r.randint(self.output_size, 47)
        d = upper_attributes(r) | oa & ~((1 << self.lsb(level)) - 1) | r.getrandbits(10) << 2 | 1 | (2 if level == 3 else 0)
        return d & ~0x400 if r.random() < .04 else d | 0x400

    def tables(self):
        r = self.r
        self.slots = list(range(3))
        r.shuffle(self.slots)
        self.pages = r.sample(range(48), 4)
        self.words = {}
        table = self.base = self.place(self.start, 8 << self.first_bits)
        for level in range(self.start, self.leaf + 1):
            width = self.first_bits if level == self.start else self.stride
            addr = table + ((self.va >> self.lsb(level) & (1 << width) - 1) << 3)
            if r.random() < .02:
                self.words[addr] = r.getrandbits(64) & ~1
                break
            if level == self.leaf:
                self.words[addr] = self.leaf_descriptor(level)
                if self.va & 0xFFF > 0xFF8 and level == 3 and addr + 8 & (1 << self.granule) - 1:
                    self.words[addr + 8] = self.leaf_descriptor(level) if r.random() < .8 else 0
                break
            following = self.place(level + 1, 8 << self.stride)
            attributes = upper_attributes(r) if r.random() < .5 else 0
            self.words[addr] = attributes & 0xFFF << 52 | following | 3
            if (following & M48) >> self.output_size or not WINDOW <= following < WINDOW + WINDOW_LEN:
                break
            table = following & ~((1 << self.granule) - 1)
        self.words = {a: d for a, d in self.words.items() if WINDOW <= a < WINDOW + WINDOW_LEN}
        if self.el2:
            self.words[self.base + 8] = 0x40000481         # the guest's own GiB, read-only
        # What the access may reach: the word itself, its neighbour, the start of a second page mapped to the same place.
        self.data = self.final & ~7
        self.words[self.data] = PERM_WORD if self.fetch else r.getrandbits(64)
        if self.offset & 7:
            for addr in (self.data + 8, self.data & ~0xFFF, self.data & ~0xFFFF):
                if WINDOW <= addr < WINDOW + WINDOW_LEN and addr not in self.words:
                    self.words[addr] = r.getrandbits(64)

    def line(self):
        bases = (OWN_TABLE, self.base) if self.upper else (self.base, 0 if self.one_range else OWN_TABLE)
        mair = self.r.choice([0xFF, 0x0044FF04, self.r.getrandbits(64)])
        return "%s scr=%x hcr=%x sctlr=%x tcr=%x ttbr0=%x ttbr1=%x mair=%x va=%x arg=%x %s" % (
            self.kind, 0x430 | self.ns, 1 << 31 | self.tge << 27, self.sctlr, self.tcr, bases[0], bases[1], mair,
            self.va, self.data, " ".join("%x:%x" % w for w in self.words.items()))


if __name__ == "__main__":
    chance = random.Random(int(sys.argv[1]))
    for _ in range(int(sys.argv[2])):
        print(Access(chance).line())
