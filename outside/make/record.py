#!/usr/bin/env python3
"""record.py DIR [--check]: the vectors as records of DIR, outside-NAME.rec (../../recorded/README.md has the format).

A case is the lines of vec2trace.py, without those that would change nothing, between `case` and `end`; what is due
after '#=' becomes `answer` and `due` lines, and a marked line's outside answer `other` lines. A line whose class the library
follows is held to its outside answer, another marked line with stage 1 off and a large address to an address size fault of
level 0, and a load over two pages whose second page faults on the Rust to the first page's external abort. --check writes
nothing; the status is 1 where a file is not what would be written.
"""
import struct
import sys

from lib import *
from vec2trace import access_and_entry, at_lines, due, fields

FILES = ("at", "access", "entry", "departures", "perm")
NUMBER = {name: i for i, name in enumerate(CLASSES, 1)}
MAGIC = struct.unpack("<Q", b"A72REC03")[0]
ANSWER, VALUE, LEVEL, PAR, PC = 0x10000, 0x10001, 68, 32, 33
OPERATION_WORDS = 39        # of an operation's line that is not short
PLACES = {"par": PAR, "el": LEVEL, "pc": PC}
PLACES.update({"%s%d" % (name, level): at + level for name, at in (("ELR", 15), ("SPSR", 18), ("ESR", 21), ("FAR", 24)) for level in (1, 2, 3)})
EXCEPTION = {"und": 0, "svc": 1, "hvc": 2, "smc": 3, "brk": 4, "data": 5, "insn": 6, "pca": 7}
# The keys of ESR, FAR, ELR and SPSR of each level.
SAVED = {level: tuple(int(bank + key, 16) for key in ("290", "300", "201", "200")) for level, bank in ((1, "c"), (2, "e"), (3, "f"))}
ENTRY_LINES = 24            # what entry_lines makes


def short(code, small=0, *words):
    """A short line's words."""
    assert small < 1 << 48 and len(words) < 4
    return [code + 128 | len(words) << 8 | small << 16, *words]


class Recorder:
    """Trace lines as short lines. It knows what registers and RAM hold, and leaves out what would change nothing."""

    def __init__(self):
        self.words, self.lines, self.operations, self.cases = [], 0, 0, 0
        self.held, self.ram, self.cleared, self.entries = {}, {}, set(), set()

    def put(self, code, small=0, *words):
        self.words += short(code, small, *words)
        self.lines += 1
        self.operations += code < 60

    def set(self, what, value, code, *rest):
        """A setting, where the core does not hold the value already."""
        if self.held.get(what) != value:
            self.held[what] = value
            self.put(code, *rest)

    def poke(self, addr, value):
        assert addr % 8 == 0
        if value == 0:
            self.cleared.add(addr)
            return
        self.cleared.discard(addr)
        if self.ram.get(addr) != value:
            self.ram[addr] = value
            self.put(63, addr, value)

    def clear(self):
        """The words that are zero by now."""
        for addr in sorted(self.cleared):
            if self.ram.get(addr, 0) != 0 or addr in self.ram and self.ram[addr] is None:
                self.put(63, addr, 0)
            self.ram[addr] = 0
        self.cleared.clear()

    def system(self, op1, crn, crm, op2, rt):
        self.clear()
        self.put(7, op1 | crn << 8 | crm << 16 | op2 << 24 | rt << 32)
        if (crn, crm) == (7, 8):
            self.held.pop(0xC3A0, None)
        if (op1, crn, crm, op2) == (3, 7, 4, 1):
            self.ram = dict.fromkeys(self.ram)

    def abort(self, what, *args):
        self.put(12, EXCEPTION[what], *args)
        for name in ("level", "spsel", "pc"):
            self.held.pop(name, None)

    def taken(self, level):
        """An exception was taken there."""
        for key in SAVED[level]:
            self.held.pop(key, None)

    def access(self, code, va, *rest):
        self.clear()
        self.put(code, rest[0] if rest else 0, va, *rest[1:])
        if code == 5:
            self.ram = dict.fromkeys(self.ram)

    def line(self, text):
        name, *args = text.split()
        if name == "abort":
            return self.abort(args[0], *(int(a, 16) for a in args[1:]))
        n = [int(a, 16) for a in args]
        simple = {"level": 9, "mark": 10, "p-level": 40, "p-spsel": 42}
        if name in simple:
            self.set(name.replace("p-", ""), n[0], simple[name], n[0])
        elif name == "p-pc":
            self.set("pc", n[0], 41, 0, n[0])
        elif name == "reg":
            self.set(n[0], n[1], 8, n[0], n[1])
        elif name == "x":
            self.set("x%d" % n[0], n[1], 11, n[0], n[1])
        elif name == "poke":
            self.poke(*n)
        elif name == "sys":
            self.system(*n)
        else:
            self.access({"ld": 4, "st": 5, "if": 6}[name], *n)

    def answer(self, name, *args):
        """The answer that is due: code, third and fourth word in the line's first, then the second word."""
        n = [int(a, 16) for a in args] + [0, 0, 0]
        code = {"ok": 0, "val": 1, "undefined": 6, "unimplemented": 7, "data": 9, "insn": 10}[name]
        status, write = {"data": (n[2], n[1]), "insn": (n[1], 0)}.get(name, (0, 0))
        self.put(74, code | status << 8 | write << 16, *n[:len(args) > 0])

    def expect(self, code, pairs):
        for place, value in pairs:
            self.put(code, place, value)

    def traced(self, text, others):
        """A line of a trace with what is due after it, and the parts of another answer."""
        line, _, expected = text.partition(" #= ")
        self.line(line)
        if not expected:
            return
        answer, _, state = expected.partition(";")
        state = dict(part.split("=") for part in state.split())
        self.answer(*answer.split())
        self.expect(71, [(PLACES[k], int(v, 16)) for k, v in state.items()])
        if "el" in state:
            self.taken(int(state["el"]))
        self.expect(72, others)

    def case(self, line, whole):
        left, answer = due(line)
        outside, _, mark = line.partition(" => ")[2].partition(" # differ: ")
        classes = [NUMBER[c] for c in mark.split(";")[0].split(" + ")] if mark else [0]
        assert len(classes) < 3
        self.put(70, classes[0] | (classes[1] << 8 if len(classes) == 2 else 0))
        lines = access_and_entry(left, answer) if "@" in left.split()[0] else at_lines(left, answer)
        told = others_of(left, answer, outside.split(" # ")[0]) if mark else {}
        if not whole and not mark:
            lines = self.without_known_entry(lines)
        # After an access comes the word read back; an exception's entry is always last.
        parts = ["access", "word"]
        for text in lines:
            part = ("entry" if text.startswith("abort ") else parts.pop(0)) if " #= " in text else None
            self.traced(text, told.get(part, []))
        self.put(73)
        self.cases += 1

    def without_known_entry(self, lines):
        """An exception entry with just these registers and outcome is recorded once."""
        entry = tuple(lines[-ENTRY_LINES:])
        if entry in self.entries:
            return lines[:-ENTRY_LINES]
        self.entries.add(entry)
        return lines

    def file(self):
        head = [MAGIC, 8 + len(self.words), self.lines, self.operations, WINDOW_LEN, self.cases, OPERATION_WORDS, 0]
        return struct.pack("<%dQ" % (8 + len(self.words)), *head, *self.words)


def others_of(left, answer, outside):
    """The parts of an outside answer that the core does not come to, by the line after which they would show."""
    a = fields(outside)
    if "@" not in left.split()[0]:
        return {"access": [(PAR, a.get("par", PAR_BEFORE))]}
    if answer == "unimplemented":
        return {"access": [(ANSWER, 6)]}
    case, level = parse_access(left), a["taken"]
    vector = a["vec"] + {1: vectors1(case), 2: VECTORS12, 3: VECTORS3}[level]
    out = {"access": [], "word": [], "entry": [(LEVEL, level), (PC, vector)] + [
        (PLACES["%s%d" % (name, level)], a[name.lower()]) for name in ("ESR", "FAR", "ELR", "SPSR")]}
    if case["kind"] in ("ld", "ldt") and "x0" in a:
        out["access"].append((VALUE, a["x0"]))
    if "par" in a:
        out["access"].append((PAR, a["par"]))
    if "ram" in a:
        out["word"].append((VALUE, a["ram"]))
    return out


def is_large(left):
    """Whether stage 1 is off, as the library has it, and the address has bits from 44 up once its tag is dropped."""
    case = parse_access(left) if "@" in left.split()[0] else parse(left)
    form = case.get("kind", case["name"])
    if form not in AT_FORMS and form not in ("ld", "st", "ldt", "stt", "if", "zva"):
        return False
    regime = access_regime(case) if form not in AT_FORMS else 3 if "e3" in form else 2 if "1e2" in form and form[1] == "1" else 1
    if case["sctlr"] & 1 and not (regime == 1 and case["scr"] & 1 and case["hcr"] & 0x8001000):
        return False
    tbi = 20 if regime > 1 else 37 + (case["va"] >> 55 & 1)
    return case["va"] >> 44 & (0xFFF if case["tcr"] >> tbi & 1 else 0xFFFFF) != 0


def by_first_byte(case, answer):
    """The Rust's answer to a load over two pages that ends in an external abort in QEMU. Where it is the second page's fault, the
    first page lies outside RAM whole, as the window ends with a page: with its first byte's abort."""
    esr, far = (fields(answer)[name] for name in ("esr", "far"))
    if esr & 63 == 0x10:
        return answer
    return answer.replace("esr=%x far=%x" % (esr, far), "esr=%x far=%x" % (esr & ~63 | 0x10, parse(case)["va"]))


def as_followed(line):
    """The line as the library is held to it: with an address size fault of level 0 in place of the Rust's answer with stage 1 off, and
    of a load over two pages with the external abort of its first byte in place of the second page's fault. In a class that the
    library follows the mark goes, or is what is left of the difference: QEMU's ISV."""
    left, found, mark = line.partition(" # differ: ")
    classes, _, answer = mark.partition("; rust ")
    case, _, outside = left.partition(" => ")
    if found and is_large(case):
        fields_of = dict(part.split("=") for part in answer.split("; ")[0].split())
        changed = {"par": "801"} if "par" in fields_of else {"esr": "%x" % (int(fields_of["esr"], 16) & ~63)}
        answer = " ".join("%s=%s" % item for item in {**fields_of, **changed}.items())
        classes = "isv" if classes in FOLLOWED else classes
    elif found and classes in FOLLOWED:
        answer = outside
    elif classes == "split-far":
        answer = by_first_byte(case, answer)
    return left if not found or answer == outside else "%s # differ: %s; rust %s" % (left, classes, answer)


def record(name):
    r = Recorder()
    r.put(60)
    r.put(61, WINDOW, WINDOW_LEN)
    for line in lines_of(os.path.join(HERE, "..", name + ".txt")):
        r.case(as_followed(line), name != "perm")
    return r.file()


def main(args):
    check, where = "--check" in args, [a for a in args if a != "--check"]
    if len(where) != 1:
        raise SystemExit(__doc__)
    good = size = 0
    for name in FILES:
        path, data = os.path.join(where[0], "outside-%s.rec" % name), record(name)
        if check:
            same = os.path.exists(path) and open(path, "rb").read() == data
            if not same:
                print("%s is not what the program makes" % path)
            good += same
        else:
            with open(path, "wb") as f:
                f.write(data)
            good += 1
        size += len(data)
    print("%d bytes, %d of %d files as made" % (size, good, len(FILES)))
    return 0 if good == len(FILES) else 1


if __name__ == "__main__":
    sys.exit(main(sys.argv[1:]))
