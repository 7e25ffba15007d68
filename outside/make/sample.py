#!/usr/bin/env python3
"""sample.py FULL OUT: the recorded sample OUT/{at,access,perm,entry,departures}.txt from the full answers FULL/*.txt.

at, access: a line is kept where one of its features was kept fewer than KEEP times before, in the order of the full
set. entry, departures: every line. perm: every case, 512 to a line. sample.py --counts DIR prints a folder's counts.
"""
import collections
import os
import sys

from lib import *

KEEP = {"at": 3, "access": 2}


def granule_of(tcr, upper):
    return tcr >> 30 & 3 if upper else tcr >> 14 & 3


def outcome(line):
    """The class of a marked line; else the status, with the level."""
    left, _, right = line.partition(" => ")
    if " # differ: " in right:
        return right.split(" # differ: ")[1].split(";")[0]
    a = dict(part.split("=") for part in right.split(" # ")[0].split() if "=" in part)
    if "@" not in left.split()[0]:
        par = int(a["par"], 16)
        return "%02x" % (par >> 1 & 63) if par & 1 else "leaf" if parse(left)["sctlr"] & 1 else "flat"
    esr = int(a["esr"], 16)
    ec = esr >> 26
    if 0x20 <= ec <= 0x25 and ec != 0x22:
        return "%02x" % (esr & 63)
    return {0: "undefined", 0x22: "pc alignment"}.get(ec, "done")


def features(line):
    """What a line is kept for. Each is a tuple; `range` is the regime, or EL1&0's upper range."""
    left = line.partition(" => ")[0]
    result = outcome(line)
    is_at = "@" not in left.split()[0]
    case = parse(left) if is_at else parse_access(left)
    regime = at_regime(case) if is_at else access_regime(case)
    upper = regime == 1 and case["va"] >> 55 & 1
    where = "upper" if upper else regime
    tcr = case["tcr"]
    tsz = tcr >> 16 & 63 if upper else tcr & 63
    ps = tcr >> 32 & 7 if regime == 1 else tcr >> 16 & 7
    tbi = tcr >> (38 if upper else 37) & 1 if regime == 1 else tcr >> 20 & 1
    yield case["name"], result
    yield where, "granule", granule_of(tcr, upper), result
    if " # differ: " in line:
        return
    if 16 <= tsz <= 39:
        yield where, "granule", granule_of(tcr, upper), "tsz", tsz
    yield where, "tagged", tbi and tagged(case, regime), result
    if is_at:
        yield where, "ps", ps, result
        yield where, "words", len(case["words"]), result
    else:
        yield case["name"], "crosses", case["va"] & 0xFFF > 0xFF8, result


def sample(lines, keep):
    seen = collections.Counter()
    for line in lines:
        of_line = list(features(line))
        if any(seen[f] < keep for f in of_line):
            seen.update(of_line)
            yield line


def counts(folder):
    for name in ("at", "access", "perm", "entry", "departures"):
        path = os.path.join(folder, name + ".txt")
        by = collections.Counter()
        lines = list(lines_of(path))
        for line in lines:
            by["differ" if " # differ: " in line else "agree", outcome(line)] += 1
        print("%s.txt: %d cases, %d bytes" % (name, len(lines), os.path.getsize(path)))
        for verdict in ("agree", "differ"):
            some = sorted((k, n) for (v, k), n in by.items() if v == verdict)
            print("  %s %d: %s" % (verdict, sum(n for _, n in some), ", ".join("%s %d" % kn for kn in some)))


def main(args):
    if args[0] == "--counts":
        counts(args[1])
        return
    full, out = args
    for name in ("at", "access", "perm", "entry", "departures"):
        lines = [l.rstrip("\n") for l in open(os.path.join(full, name + ".txt"))]
        if name in KEEP:
            lines = list(sample(lines, KEEP[name]))
        elif name == "perm":
            lines = pack_perm(lines)
        with open(os.path.join(out, name + ".txt"), "w") as f:
            f.write("\n".join(lines) + "\n")


if __name__ == "__main__":
    main(sys.argv[1:])
