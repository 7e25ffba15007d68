"""What is proved of whole crates: the functions of crates/*/src/theorems.rt, the clauses of each, the laws that prove them, and the rows of docs/PROVED.md
that cite those. tools/counts writes the table of that page by it, and compares."""
import re
from pathlib import Path

ROOT = Path(__file__).resolve().parent.parent
# What an answer hands to a law, and is no law that it rests on.
HANDED = {"real", "real-laws", "fresh_plain", "fresh-asid", "fresh-stands", "omega", "arith", "rules", "replicate-at"}
# The key of laws that prove a function's clauses together, where they are not one for each.
TOGETHER = "together"


def crates():
    """The names of the crates, in the order of crates.txt."""
    return re.findall(r"^([a-z0-9_]+)(?: staticlib)?:", (ROOT / "crates.txt").read_text(), re.M)


def functions(crate):
    """Each theorems' function of a crate, with the names of its clauses; a clause alone may have none."""
    path = ROOT / "crates" / crate / "src/theorems.rt"
    text = path.read_text() if path.exists() else ""
    parts = re.split(r"^pub fn (\w+)(?:<.*>)?\(", text, flags=re.M)[1:]
    return [(name, [c.strip() for c in re.findall(r"^    ensures (\w+ )?\{", body, re.M)]) for name, body in zip(parts[::2], parts[1::2])]


def answers(crate, function):
    """The laws that prove a function's clauses, by the clause's name: of those that its Answers.antt imports, those that the answer names."""
    path = ROOT / "crates" / crate / "proofs/theorems" / function / "Answers.antt"
    text = path.read_text() if path.exists() else ""
    imported = re.findall(r"^use Rattle\.(?!std\.)\S*?\.\{(.*?)\}", text, re.M)
    known = {name.strip() for names in imported for name in names.split(",")}
    given = dict(re.findall(r"^returns-clause-(\w+) \S+ =(.*?)(?=^pub|^returns|\Z)", text, re.M | re.S))
    given.update(("", said) for said in re.findall(r"^returns \w+ = (\w\S*)$", text, re.M))
    for record in re.findall(r"^returns \S+ = record \{(.*?)\}", text, re.M | re.S):
        given.update(part.strip().split(" = ", 1) for part in record.split(";") if " = " in part)
    laws = {clause: [w for w in dict.fromkeys(re.findall(r"[\w-]+", said)) if w in known] for clause, said in given.items()}
    listed = re.search(r"^returns c = (?:assumption|search) \(?(.*?)\)?$", text, re.M)
    if listed:
        found = [law for law in re.findall(r"[\w-]+", listed[1]) if law not in HANDED]
        stated = dict(functions(crate))[function]
        laws |= one_each(stated, found) if len(found) == len(stated) else {TOGETHER: found}
    return using(crate, function) | {clause: [w for w in found if w not in HANDED] or found for clause, found in laws.items()}


def one_each(stated, found):
    """A law for each clause: that of its name, and of the others the next."""
    own = {clause: law for clause in stated for law in found if law.replace("-", "_") == clause}
    others = iter([law for law in found if law not in own.values()])
    return {clause: [own[clause] if clause in own else next(others)] for clause in stated}


def using(crate, function):
    """The laws that a function's own attribute names, where there is one for each clause, in their order."""
    path = ROOT / "crates" / crate / "src/theorems.rt"
    named = re.search(rf"using\(([^)]*)\)\)\]\npub fn {function}\(", path.read_text()) if path.exists() else None
    laws = [law.strip().split("::")[-1] for law in named[1].split(",")] if named else []
    stated = dict(functions(crate)).get(function, [])
    return {clause: [law] for clause, law in zip(stated, laws)} if len(laws) == len(stated) else {}


def cell(stated, laws):
    """A function's clauses, each with its laws; clauses that no law proves are told together, and one whose law has its name is told by it."""
    together = laws.get(TOGETHER)
    parts, alone = [], [clause for clause in stated if not laws.get(clause)]
    for clause in stated:
        named = [law.replace("-", "_") for law in laws.get(clause, [])]
        if named:
            parts.append(f"`{laws[clause][0]}`" if named in ([clause], [""]) or not clause else f"{clause}: " + ", ".join(f"`{law}`" for law in laws[clause]))
    by = ("found by " + ", ".join(f"`{law}`" for law in together)) if together else "found"
    if alone:
        parts.append(by if alone == [""] else ", ".join(alone) + f": {by}")
    return "; ".join(parts)


def rows(text):
    """The rows of a page's tables that have a number: the number, the crates that it names by a path, the names in backticks."""
    for row in re.findall(r"^\| (?:\w|\.)*\d\w* \|.*\|$", text, re.M):
        seen = set(re.findall(r"\b([a-z0-9_]+)/(?:src|specs|proofs|must-fail|wrong)", row))
        yield row.split("|")[1].strip(), seen, set(re.findall(r"`([\w:.-]+)`", row))


def homes():
    """The crates of which a law, or a function of this name, stands in a module `theorems`."""
    of = {}
    for crate in crates():
        for function, _ in functions(crate):
            for name in {function}.union(*answers(crate, function).values()):
                of.setdefault(name, set()).add(crate)
    return of


def block(proved):
    """What stands between the marks of docs/PROVED.md: how many of the cited laws prove a clause, those that do not, and the table."""
    cited, of, table, proving = list(rows(proved)), homes(), [], set()
    for crate in crates():
        for function, stated in functions(crate):
            laws = answers(crate, function)
            names = {function}.union(*laws.values())
            proving |= names - {function}
            # a name of one word may be another's: its row names the crate by a path
            at = [row for row, seen, said in cited if any(n in said and (crate in seen or len(of[n]) == 1 and re.search("[-_]", n)) for n in names)]
            table.append(f"| `{crate}` | `{function}` | {cell(stated, laws)} | {', '.join(dict.fromkeys(at)) or '-'} |")
    named = set().union(*(said for _, _, said in cited))
    laws = {n for n in named if n in proving or ("-" in n and not n.endswith("-"))}
    used = sorted(laws - proving)
    first = f"Of the {len(laws)} laws that the tables of this page cite {len(laws - set(used))} prove a clause below"
    first += f", and {len(used)} are used in the proof of one: {', '.join(f'`{n}`' for n in used)}." if used else "."
    return [first, "", "| Crate | Function | Clauses, each with the law that proves it | Rows |", "|---|---|---|---|", *table]
