#!/usr/bin/env python3
"""vec2trace.py VECTORS: the vectors as a trace of the oracle, with the answer that is due after '#='.

Due is the outside answer, or where the line is marked 'differ' the Rust's that stands in the mark. An access becomes
the access itself (its fault read back out of ESR and FAR), the word at arg, and the entry of its exception.
"""
import sys

from lib import *

SYNDROME = {0x15: "svc", 0x16: "hvc", 0x17: "smc", 0x3C: "brk"}


def due(line):
    """A line's case and the answer that the Rust shall give."""
    left, _, right = line.partition(" => ")
    outside, _, remark = right.partition(" # ")
    for part in remark.split("; "):
        if part.startswith("rust "):
            return left, part[5:]
    return left, outside


def fields(answer):
    return {k: int(v, 16) for k, v in (part.split("=") for part in answer.split() if "=" in part)}


def at_lines(left, answer):
    case = parse(left)
    form = AT_FORMS[case["name"]] + (fields(answer)["par"],)
    return setup(case, at_regime(case)) + ["x 1 %x" % case["va"], "reg c3a0 %x" % PAR_BEFORE,
                                           "sys %x 7 8 %x 1 #= ok; par=%x" % form] + clear(case)


def decode(case, a):
    """The access's answer (None: no access is made) and the exception (pc, what) that the answer's syndrome tells of."""
    kind, ec, status, pc = case["kind"], a["esr"] >> 26, a["esr"] & 63, a["pc"]
    if ec in (0x24, 0x25):
        what = "data %x %d %02x" % (a["far"], a["esr"] >> 6 & 1, status)
        return what, pc, what
    if ec in (0x20, 0x21):
        what = "insn %x %02x" % (a["far"], status)
        return what, pc, what
    if ec == 0x22:
        return None, case["va"], "pca"
    if kind in ("hvc", "smc") and case["el"]:
        return None, pc, "%s %x" % (kind, 0x2345 if kind == "hvc" else 0x3456)
    if ec == 0:
        return None if kind in EXCEPTIONS else "undefined", pc, "und"
    if kind in EXCEPTIONS:
        return None, pc, "%s %x" % (SYNDROME[ec], a["esr"] & 0xFFFF)
    if kind == "if":
        return "val d4000ee1", pc, "svc 77"
    return "val %x" % a["x0"] if kind in ("ld", "ldt") else "ok", pc + 4, "svc 11"


def access_and_entry(left, answer):
    case = parse_access(left)
    if answer == "unimplemented":
        return access_lines(case, " #= unimplemented; par=%x" % PAR_BEFORE) + clear(case)
    a = fields(answer)
    done, pc, what = decode(case, a)
    out = []
    if done:
        out += access_lines(case, " #= " + done + ("; par=%x" % a["par"] if "par" in a else ""))
        if "ram" in a:
            out += ["ld %x 8 #= val %x" % (case["arg"], a["ram"])]
        out += clear(case)
    level = a["taken"]
    vector = a["vec"] + {1: vectors1(case), 2: VECTORS12, 3: VECTORS3}[level]
    return out + entry_lines(case, what, pc, " #= ok; el=%d pc=%x ESR%d=%x FAR%d=%x ELR%d=%x SPSR%d=%x" % (
        level, vector, level, a["esr"], level, a["far"], level, a["elr"], level, a["spsr"]))


def trace_of(lines):
    out = list(START)
    for line in lines:
        left, answer = due(line)
        out += access_and_entry(left, answer) if "@" in left.split()[0] else at_lines(left, answer)
    return out


if __name__ == "__main__":
    print("\n".join(trace_of(lines_of(sys.argv[1]))))
