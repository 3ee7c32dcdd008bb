#!/usr/bin/env python3
"""Brings the names of this repository's own definitions and lemmas to snake case, once.

usage: python3 tools/respell.py [--dry]      at the top of the repository, after the toolchain's port.py

A name that is declared in specs/ or proofs/ of a crate and has a hump or a dash (`isImage`, `rights-head`) becomes `is_image`,
`rights_head`, in specs/, proofs/, the clauses of src/, the edits of must-fail/ and the documents. Types and modules, which begin with a capital, stay as
they are, and so do the names of goals, which the checker makes. Text between quotation marks stays. A dash stays where the name without
it is taken: a dash joins two names. Two humped names that would fall together, or one and a name that is there, stop the script before
anything is written, unless TOGETHER says what it becomes.
"""
import glob
import re
import sys

# Names that would fall together with another one, and what each becomes.
TOGETHER = {"byCount": "decodes_by_count"}
TOKEN = r"[^\s(){}\[\];:,.\"⌜⌝λ`|]+"
DECLARED = re.compile(r"^(\s*)((?:pub |abbrev |unfoldable )*)(" + TOKEN + r") :(?: |$)(.*)")
HUMP = re.compile(r"^[a-z][A-Za-z0-9₀-₉'_-]*$")


def snake(name):
    s = re.sub(r"([A-Z]+)([A-Z][a-z])", r"\1_\2", name)
    s = re.sub(r"([a-z0-9₀-₉'])([A-Z])", r"\1_\2", s)
    return s.replace("-", "_").lower()


def files(*patterns):
    return sorted(f for p in patterns for f in glob.glob(p, recursive=True))


def read(path):
    with open(path, encoding="utf-8") as f:
        return f.read()


def goal(kind):
    return re.search(r"(?<![\w'])(tie|goal)\.", kind) is not None


def declared(antt):
    """The names to respell: declared with a hump or a dash, and never as a goal."""
    found, goals = set(), set()
    for path in antt:
        for line in read(path).splitlines():
            m = DECLARED.match(line)
            if not m or not HUMP.match(m[3]) or snake(m[3]) == m[3]:
                continue
            (goals if goal(m[4]) else found).add(m[3])
    return found - goals


def tokens(text):
    """The text in pieces: [is a name, piece]. Text between quotation marks is not a name."""
    out, at = [], 0
    for m in re.finditer(r"(\"[^\"\n]*\")|(" + TOKEN + ")", text):
        out.append((False, text[at : m.start()]))
        out.append((m[2] is not None, m[0]))
        at = m.end()
    out.append((False, text[at:]))
    return out


def respelled(path, line, table, humped):
    """A line with its names respelled. In a comment or a document a word with a dash may be English, and only humped names are names."""
    mark = {".antt": "--", ".rt": "//", ".edit": "#"}.get(path[path.rindex(".") :])
    at = 0 if mark is None else line.find(mark)
    if path.endswith(".edit") and at != 0:
        at = -1
    code, said = (line, "") if at < 0 else (line[:at], line[at:])
    return "".join(t.get(p, p) if name else p for text, t in ((code, table), (said, humped)) for name, p in tokens(text))


def main():
    antt = files("crates/*/specs/**/*.antt", "crates/*/proofs/**/*.antt")
    every = antt + files("crates/*/src/**/*.rt", "crates/*/must-fail/*.edit", "tests/definition/*.edit", "README.md", "docs/*.md")
    table = {n: TOGETHER.get(n, snake(n)) for n in declared(antt)}
    used = {}
    for path in antt:
        before = ""
        for name, piece in tokens(re.sub(r"--.*", "", read(path))):
            if name and not before.endswith("."):
                used.setdefault(piece, set()).add(path)
            before = piece or before
    clash = 0
    for old in sorted(table, key=lambda n: ("-" not in n, n)):
        new = table[old]
        beside = sorted(used.get(new, set()) & used.get(old, set()))
        others = [o for o in table if o != old and table[o] == new]
        if "-" in old and (new in used or others):
            print(f"keeps its dash: {old}")
            table[old] = old
        elif beside or others:
            print(f"falls together: {old} -> {new}, with {others}; {new} stands in {beside[:3]}")
            clash += 1
    table = {o: n for o, n in table.items() if o != n}
    print(f"{len(table)} names")
    if "--dry" in sys.argv or clash:
        return 1 if clash else 0
    humped = {o: n for o, n in table.items() if "-" not in o}
    for path in every:
        text = read(path)
        new = "".join(respelled(path, line, table, humped) for line in text.splitlines(keepends=True))
        if new != text:
            with open(path, "w", encoding="utf-8") as f:
                f.write(new)
    return 0


sys.exit(main())
