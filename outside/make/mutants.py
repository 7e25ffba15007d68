#!/usr/bin/env python3
"""mutants.py VECTORS: how many of the AT vectors each wrong walk fails.

The walk is model.py's with QEMU's switches; each mutant is one edit of its text. The exit status is 1 where a mutant fails none.
"""
import os
import sys

from lib import HERE, lines_of, parse

SOURCE = open(os.path.join(HERE, "model.py")).read()
FLAG = "        if not d >> 10 & 1:\n            return fault(8 + level)\n"
OUTPUT = "        oa = d & M48 & ~((1 << lsb)"
NEXT_SIZE = "            if table >> output_size:\n                return fault(level)"
MUTANTS = [
    ("PA code 1 is 40 bits", "[32, 36, 40,", "[32, 40, 40,"),
    ("PA codes 5 to 7 are 48 bits", "44, 44, 44, 44][ps]", "44, 48, 48, 48][ps]"),
    ("TG1 = 1 is 64 KiB", "tcr >> 30 & 3 == 3", "tcr >> 30 & 3 == 1"),
    ("EPD1 not looked at", "tcr >> 23 & 1, tcr >> 32", "0, tcr >> 32"),
    ("EPD0 not looked at", "tcr >> 7 & 1, tcr >> 32", "0, tcr >> 32"),
    ("start level one too high", "4 - -(-(input_size - g) // stride)", "max(0, 3 - -(-(input_size - g) // stride))"),
    ("table base aligned to 64 bytes at least", "~((8 << first_bits) - 1)", "~((max(8 << first_bits, 64)) - 1)"),
    ("table base not aligned", "ttbr & M48 & ~((8 << first_bits) - 1)", "ttbr & M48 & ~7"),
    ("base size not checked", "    if table >> output_size:\n        return fault(0)", "    if False:\n        return fault(0)"),
    ("next table's size not checked", NEXT_SIZE, NEXT_SIZE.replace("table >> output_size", "False")),
    ("size fault of a table one level down", NEXT_SIZE, NEXT_SIZE.replace("fault(level)", "fault(level + 1)")),
    ("APTable[1] ignored", "read_only |= d >> 62 & 1", "read_only |= 0"),
    ("APTable[0] ignored", "no_el0 |= d >> 61 & 1", "no_el0 |= 0"),
    ("AP[1] asked for in regimes 2 and 3", "(user and not el0)", "(user and not el0) or (regime > 1 and d >> 6 & 1 == 0)"),
    ("level 3 with bit 1 clear taken", "level == 3 and d & 2 or", "level == 3 or"),
    ("TBI1 not looked at", "tcr >> (38 if upper else 37)", "tcr >> 37"),
    ("tag filled with zeros in the upper range", "(0xFF << 56 if upper else 0)", "0"),
    ("range by bit 63", "va >> 55 & 1\n    tbi", "va >> 63 & 1\n    tbi"),
    ("out of range judged before the tag goes", "    high = v >> input_size", "    high = va >> input_size"),
    ("AP[2] read from bit 6", "        ap2 = d >> 7", "        ap2 = d >> 6"),
    ("SH one bit off", "sh << 7 | (1 if n", "sh << 8 | (1 if n"),
    ("AttrIndx without its low bit", "(d >> 2 & 7)", "(d >> 2 & 6)"),
    ("leaf's NS ignored", "n = ns or d >> 5 & 1 or", "n = ns or"),
    ("64 KiB stride 12", "stride = g - 3", "stride = min(g - 3, 12)"),
    ("block offset from the page only", "| v & (1 << lsb) - 1\n", "| v & 0xFFF\n"),
    ("external abort's level 0", "0x14 + level)\n            return", "0x14)\n            return"),
]


def mutate(old, new):
    assert old in SOURCE, old
    return SOURCE.replace(old, new)


def read(path):
    """The AT cases and the outside answers."""
    out = []
    for line in lines_of(path):
        left, right = line.split(" # ")[0].split(" => ")
        answer = dict(part.split("=") for part in right.split() if "=" in part)
        out.append((parse(left), ("par", int(answer["par"], 16)) if "par" in answer else ("exc", int(answer["esr"], 16))))
    return out


def failures(source, cases):
    space, n = {}, 0
    exec(compile(source, "mutant", "exec"), space)
    for case, outside in cases:
        try:
            answer = space["model"](case, space["QEMU"])
        except Exception:
            answer = None
        if answer == ("par", "s2"):
            n += not (outside[0] == "par" and outside[1] & 0x301 == 0x301)
        else:
            n += answer != outside
    return n


def main(path):
    cases = read(path)
    print("the model itself: %d of %d wrong" % (failures(SOURCE, cases), len(cases)))
    caught = []
    for name, source in [(name, mutate(old, new)) for name, old, new in MUTANTS] + [
            ("access flag before size", mutate(FLAG, "").replace(OUTPUT, FLAG + OUTPUT))]:
        n = failures(source, cases)
        caught.append(n > 0)
        print("%5d  %s" % (n, name))
    print("%d wrong walks, %d caught" % (len(caught), sum(caught)))
    return 0 if all(caught) else 1


if __name__ == "__main__":
    sys.exit(main(sys.argv[1]))
