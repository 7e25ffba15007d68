#!/usr/bin/env python3
"""compare.py at|access|entry|single FILE [-o VECTORS] | registers

Run FILE's cases in QEMU and on the Rust, print a table of agreement and the classes of difference, and write
VECTORS. at: AT from EL3. access: accesses and AT at a level. entry: exceptions. single: departures.txt, each line
with all its answers. registers: what each register keeps of a write. A difference that no class explains is
printed as UNEXPLAINED and makes the exit status 1.
"""
import collections
import itertools
import sys

import model
from lib import *

UNEXPLAINED = "UNEXPLAINED"
FAULT_NAMES = {0: "address size", 1: "translation", 2: "access flag", 3: "permission", 5: "external on walk"}


def status_name(status):
    return "external" if status == 0x10 else "%s, level %d" % (FAULT_NAMES[status >> 2], status & 3)


def mark(cls, rust):
    return " # differ: %s; rust %s" % (cls, rust)


def print_classes(differ):
    print("differences:")
    for cls, n in differ.most_common():
        row = ", ".join(CLASSES[c][0] for c in cls.split(" + ")) if cls != UNEXPLAINED else "?"
        print("%6d  %s (%s)" % (n, cls, row))
    return differ[UNEXPLAINED] == 0


# ---- AT from EL3 -----------------------------------------------------------------------------------------


def run_at(cases):
    """(case, QEMU's answer, the Rust's): ("par", PAR) or ("exc", ESR, FAR)."""
    out = []
    for case, w, (answer, par) in zip(cases, qemu(cases), rust_at(cases)):
        assert answer == "ok", answer
        out.append((case, ("exc", w[2], w[3]) if w[1] else ("par", w[0]), ("par", par)))
    return out


def same_at(by_model, answer):
    if by_model == ("par", "s2"):
        return answer[0] == "par" and answer[1] & 0x301 == 0x301
    return by_model == answer[:2]


def at_class(case, answer):
    """The fewest switches of the model that turn the Rust's answer into QEMU's."""
    between = sorted(model.QEMU ^ model.RUST)
    for n in (1, 2, 3):
        for switches in itertools.combinations(between, n):
            if same_at(model.model(case, model.RUST ^ set(switches)), answer):
                return " + ".join("off-size" if s == "off-untag" else s for s in switches)
    return UNEXPLAINED


def show_at(answer):
    return "par=%x" % answer[1] if answer[0] == "par" else "exc esr=%x far=%x" % answer[1:]


def at(lines):
    agree, differ, vectors = collections.Counter(), collections.Counter(), []
    model_wrong = collections.Counter()
    for line, (case, by_qemu, by_rust) in zip(lines, run_at([parse(l) for l in lines])):
        model_wrong["the Rust"] += not same_at(model.model(case, model.RUST), by_rust)
        model_wrong["QEMU"] += not same_at(model.model(case, model.QEMU), by_qemu)
        if by_qemu == by_rust:
            par = by_qemu[1]
            status = status_name(par >> 1 & 63) if par & 1 else "leaf" if case["sctlr"] & 1 else "stage 1 off"
            agree[status, at_regime(case)] += 1
            vectors.append("%s => %s" % (line, show_at(by_qemu)))
        else:
            cls = at_class(case, by_qemu)
            differ[cls] += 1
            vectors.append("%s => %s%s" % (line, show_at(by_qemu), mark(cls, show_at(by_rust))))
    print("AT from EL3: %d cases, %d equal PARs" % (len(lines), sum(agree.values())))
    print("%-28s %8s %8s %8s" % ("equal, by status", "EL1&0", "EL2", "EL3"))
    for status in sorted({s for s, _ in agree}):
        print("%-28s %8d %8d %8d" % (status, agree[status, 1], agree[status, 2], agree[status, 3]))
    fine = print_classes(differ)
    print("the model against the Rust: %(the Rust)d wrong; against QEMU: %(QEMU)d wrong" % model_wrong)
    return vectors, fine and not any(model_wrong.values())


# ---- accesses and AT at a level -----------------------------------------------------------------------------


class Seen:
    """What one access came to on both sides. `q` and `t`: level taken to, vector offset, exception registers."""

    def __init__(self, case, w, rust, taken):
        self.case, self.pc, self.q_par = case, w[0], w[1]
        *self.q, self.q_x0, self.q_ram = qemu_taken(case, w)
        self.answer, self.r_par, ram = rust
        self.r_ram = int(ram.split()[1], 16) if ram.startswith("val") else None
        self.t = taken
        loaded = self.answer.startswith("val") and case["kind"] in ("ld", "ldt")
        self.r_x0 = int(self.answer.split()[1], 16) if loaded else STORED

    def q_reg(self, name):
        return self.q[2]["%s%d" % (name, self.q[0])]

    def t_reg(self, name):
        return self.t[2]["%s%d" % (name, self.t[0])]

    def differences(self):
        """The names of what differs: taken, registers, x0, ram, par, answer."""
        out = ["taken"] if self.q[:2] != list(self.t[:2]) else []
        out += [k for k in sorted(self.q[2]) if self.q[2][k] != self.t[2][k]]
        out += ["x0"] if self.case["kind"] in ("ld", "ldt") and self.q_x0 != self.r_x0 else []
        out += ["ram"] if self.case["arg"] and self.q_ram != self.r_ram else []
        out += ["par"] if self.case["el"] != 3 and self.q_par != self.r_par else []
        return out + (["answer"] if self.answer == "unimplemented" else [])

    def show(self, level, vector, regs, par, x0, ram):
        esr, far, elr, spsr = (regs["%s%d" % (r, level)] for r in ("ESR", "FAR", "ELR", "SPSR"))
        out = "taken=%d vec=%x esr=%x far=%x elr=%x spsr=%x pc=%x" % (level, vector, esr, far, elr, spsr, self.pc)
        if self.case["kind"] in AT_FORMS:
            return out + " par=%x" % par
        return out + (" x0=%x ram=%x" % (x0, ram) if self.case["arg"] else "")

    def show_qemu(self):
        return self.show(*self.q, self.q_par, self.q_x0, self.q_ram)

    def show_rust(self):
        if self.answer == "unimplemented":
            return self.answer
        return self.show(*self.t, self.r_par, self.r_x0, self.r_ram)


def raised_by(case, pc, answer):
    """The exception (pc, what) that ends the case after the Rust's answer: a fault, or the guest's SVC."""
    word = answer.split()[0]
    if word in ("val", "ok"):
        return (pc, "svc 77") if case["kind"] == "if" else (pc + 4, "svc 11")
    return pc, "und" if word in ("undefined", "unimplemented") else answer


def run_access(cases, by_qemu=None, seen_as=None):
    """`seen_as`: the cases as the Rust's access shall see them, though not its exception entry."""
    by_qemu = by_qemu or qemu(cases)
    by_rust = rust_access(seen_as or cases)
    raised = [raised_by(case, w[0], rust[0]) for case, w, rust in zip(cases, by_qemu, by_rust)]
    return [Seen(*s) for s in zip(cases, by_qemu, by_rust, rust_entry(cases, raised))]


def without_isv(esr):
    """ESR_EL2 without ISV, SAS, SSE, SRT, SF and AR, where ISV is set."""
    return esr & ~0x1FFC000 if esr >> 24 & 1 else None


def access_class(s, differ):
    case, esr, far = s.case, s.q_reg("ESR"), s.q_reg("FAR")
    kind, va, tcr = case["kind"], case["va"], case["tcr"]
    is_at, is_off = kind in AT_FORMS, not case["sctlr"] & 1
    ec, status = esr >> 26, esr & 63
    abort = 0x20 <= ec <= 0x25
    lower = access_regime(case) > 1 or case["ttbr1"] == OWN_TABLE
    tsz = tcr & 63 if lower else tcr >> 16 & 63
    isv_gone = without_isv(esr) if s.q[0] == 2 else None
    if s.answer == "unimplemented":
        return "at-level" if differ == ["answer"] and esr == 0x2000000 else UNEXPLAINED
    if ec == 0x18 and case["el"] == 0 and s.answer == "ok":
        return "dze" if kind == "zva" else "uci" if kind in CACHE_CRM else UNEXPLAINED
    if kind == "if" and case["scr"] >> 9 & 1 and abort and status >> 2 == 3 and s.answer.startswith("val"):
        return "sif"
    if kind == "ld" and case["sctlr"] >> (25 if case["el"] else 24) & 1 and s.q_x0.to_bytes(8, "big") == s.r_x0.to_bytes(8, "little"):
        return "ee-data"
    if abort and status == 0x21:
        return "align" if case["sctlr"] & 2 and va & 7 and s.answer.startswith("val") else UNEXPLAINED
    if case["hcr"] >> 27 & 1 and not is_off:
        return "tge-walks"                                 # looked at again in `access`
    if is_off and va >> 44:
        if is_at and s.q_par == 0x801 and not s.r_par & 1 or not is_at and abort and status == 0 and far == va:
            return "off-size"
        return "off-tag" if not is_at and ec == 0x15 and va >> 44 & 0xFFF == 0 else UNEXPLAINED
    if not is_off and not 16 <= tsz <= 39:
        return "tsz-fault" if is_at and s.q_par == 0x809 or not is_at and abort and status == 4 else UNEXPLAINED
    if is_at and esr & ~3 == 0x96000154 and s.r_par >> 1 & 63 == status and far == va:
        return "walk-abort-taken"
    if is_at and differ == ["par"] and s.q_par ^ s.r_par == 0x200 and not case["scr"] & 1:
        return "nstable"
    if kind == "zva" and differ == ["FAR%d" % s.q[0]] and far == va and far & ~63 == s.t_reg("FAR"):
        return "zva-far"
    if kind == "if" and tagged(case, access_regime(case)) and all(d[:3] in ("ELR", "FAR") for d in differ):
        return "tagged-fetch"
    if isv_gone is not None and isv_gone == s.t[2]["ESR2"] and differ == ["ESR2"]:
        return "isv"
    if va & 0xFFF > 0xFF8 and kind in ("ld", "ldt") and (isv_gone or esr) & 63 == 0x10 and far == va & ~7:
        return "split-far"
    return UNEXPLAINED


def access(lines):
    cases = [parse_access(l) for l in lines]
    seen = run_access(cases)
    # HCR.TGE: QEMU walks. Ask the Rust again as if TGE were clear for the access, not for the exception.
    tge = [i for i, c in enumerate(cases) if c["hcr"] >> 27 & 1 and c["sctlr"] & 1]
    explained = {}
    if tge:
        some = [cases[i] for i in tge]
        as_if = [dict(c, hcr=1 << 31) for c in some]
        for i, s in zip(tge, run_access(some, qemu(some), as_if)):
            s.case = dict(s.case, hcr=1 << 31)
            explained[i] = not s.differences() or access_class(s, s.differences()) != UNEXPLAINED
    agree, differ, vectors = collections.Counter(), collections.Counter(), []
    for i, (line, s) in enumerate(zip(lines, seen)):
        differences = s.differences()
        if differences:
            cls = access_class(s, differences)
            if cls == "tge-walks" and not explained[i]:
                cls = UNEXPLAINED
            differ[cls] += 1
            if cls == UNEXPLAINED:
                print(UNEXPLAINED, line, "|", s.show_qemu(), "| rust", s.answer, "|", differences)
            vectors.append("%s => %s%s" % (line, s.show_qemu(), mark(cls, s.show_rust())))
        else:
            word = s.answer.split()
            status = ("AT" if s.case["kind"] in AT_FORMS else "done") if word[0] in ("val", "ok") else (
                word[0] if word[0] == "undefined" else status_name(int(word[-1], 16)))
            name = s.case["name"] if s.case["kind"] not in AT_FORMS else "at@%d" % s.case["el"]
            agree[status, name] += 1
            vectors.append("%s => %s" % (line, s.show_qemu()))
    print("accesses: %d cases, %d equal in level, vector, ESR, FAR, ELR, SPSR, value, RAM and PAR" % (len(cases), sum(agree.values())))
    names = sorted({n for _, n in agree})
    print("%-26s" % "equal, by status" + "".join("%7s" % n for n in names))
    for status in sorted({s for s, _ in agree}):
        print("%-26s" % status + "".join("%7d" % agree[status, n] for n in names))
    return vectors, print_classes(differ)


# ---- exceptions ---------------------------------------------------------------------------------------------


def raised(case, w):
    """The exception (pc, what) of a case of gen_entry.py as the Rust's decoder raises it."""
    kind, el, va = case["kind"], case["el"], case["va"]
    what = {
        "svc": "svc 1234", "hvc": "hvc 2345" if el else "und", "smc": "smc 3456" if el else "und", "brk": "brk 4567",
        "udf": "und", "mrs": "und", "msr3": "und", "br": "pca", "if": "pca" if va & 3 else "insn %x 10" % va,
        "ld": "data %x 0 10" % va, "st": "data %x 1 10" % va,
    }[kind]
    return va if kind in ("br", "if") else w[0], what


def run_entry(cases):
    by_qemu = qemu(cases)
    taken = rust_entry(cases, [raised(case, w) for case, w in zip(cases, by_qemu)])
    return [Seen(case, w, ("entry", w[1], ""), t) for case, w, t in zip(cases, by_qemu, taken)]


def entry_class(s, differ):
    case = s.case
    if case["kind"] == "hvc" and case["el"] == 1 and not case["scr"] & 1:
        return "hvc-secure"
    if case["kind"] == "smc" and case["el"] == 1 and case["scr"] & 0x81 == 0x81 and case["hcr"] >> 19 & 1:
        return "smc-tsc-smd"
    if s.q[0] == 2 and differ == ["ESR2"] and without_isv(s.q[2]["ESR2"]) == s.t[2]["ESR2"]:
        return "isv"
    return UNEXPLAINED


def entry(lines):
    agree, differ, vectors = collections.Counter(), collections.Counter(), []
    for line, s in zip(lines, run_entry([parse_access(l) for l in lines])):
        differences = [d for d in s.differences() if d != "x0"]
        if differences:
            cls = entry_class(s, differences)
            differ[cls] += 1
            vectors.append("%s => %s%s" % (line, s.show_qemu(), mark(cls, s.show_rust())))
        else:
            agree[s.case["kind"], s.case["el"], s.q[0]] += 1
            vectors.append("%s => %s" % (line, s.show_qemu()))
    print("exceptions: %d cases, %d equal in level, vector, ESR, FAR, ELR, SPSR" % (len(lines), sum(agree.values())))
    routes = sorted({(f, t) for _, f, t in agree})
    print("%-6s" % "equal" + "".join("  EL%d>EL%d" % route for route in routes))
    for kind in sorted({k for k, _, _ in agree}):
        print("%-6s" % kind + "".join("%9d" % agree[(kind,) + route] for route in routes))
    return vectors, print_classes(differ)


# ---- single inputs ------------------------------------------------------------------------------------------


def single(lines):
    cases = [l for l in lines if not l.startswith("#")]
    by_at = [l for l in cases if "@" not in l.split()[0]]
    by_entry = [l for l in cases if l.partition("@")[0] in EXCEPTIONS]
    by_access = [l for l in cases if l not in by_at and l not in by_entry]
    remark, fine = {}, True
    for line, (case, by_qemu, by_rust) in zip(by_at, run_at([parse(l) for l in by_at])):
        manual = model.model(case, model.MANUAL)
        manual = show_at(manual) if manual[0] == "par" else "exc esr=%x far=%x" % (manual[1], case["va"])
        cls = at_class(case, by_qemu) if by_qemu != by_rust else None
        fine = fine and cls != UNEXPLAINED
        remark[line] = show_at(by_qemu) + (mark(cls, show_at(by_rust)) if cls else "")
        if manual != show_at(by_qemu):
            remark[line] += ("; manual " if cls else " # manual ") + manual
    for some, run, classify in ((by_access, run_access, access_class), (by_entry, run_entry, entry_class)):
        for line, s in zip(some, run([parse_access(l) for l in some])):
            differences = [d for d in s.differences() if s.answer != "entry" or d != "x0"]
            cls = classify(s, differences) if differences else None
            fine = fine and cls != UNEXPLAINED
            remark[line] = s.show_qemu() + (mark(cls, s.show_rust()) if cls else "")
    vectors = [l if l.startswith("#") else "%s => %s" % (l, remark[l]) for l in lines]
    print("single inputs: %d" % len(cases))
    return vectors, fine


# ---- register storage -----------------------------------------------------------------------------------------


def show_registers():
    values = [ALL_ONES, 0, 0xA5A5A5A5A5A5A5A5, 0x5A5A5A5A5A5A5A5A]
    rows = registers(values)
    unequal = {row[0] for row in rows if row[2] != row[3]}
    print("write, then read back, four values each; equal: " + " ".join(r[0] for r in REGISTERS if r[0] not in unequal))
    for row in rows:
        if row[2] != row[3] and row[1] in values[:2]:
            print("  %-10s write %016x: qemu %016x rust %016x" % row)


def main(args):
    if args[0] == "registers":
        show_registers()
        return 0
    lines = [l.strip() for l in open(args[1]) if l.strip()]
    vectors, fine = dict(at=at, access=access, entry=entry, single=single)[args[0]](lines)
    if "-o" in args:
        with open(args[args.index("-o") + 1], "w") as f:
            f.write("\n".join(vectors) + "\n")
    return 0 if fine else 1


if __name__ == "__main__":
    sys.exit(main(sys.argv[1:]))
