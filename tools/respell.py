#!/usr/bin/env python3
"""Respells the repository's own definitions and lemmas for the newer Rattle: words in snake case, facts and types in camel case.

usage: python3 tools/respell.py      once, at the top of the repository, on what the kit's port.py left

It finds every name with a dash that a file of specs/ or proofs/ defines (a definition, a lemma, a field, a local name or an
argument), and turns it wherever it is cited: in these files and in the clauses, ghost members and `ghost use` lines of src/.
It turns no comment, no string, no name of the library's and none that the checker makes, as `returns-in-Ok`.
"""

import collections
import os
import re
import sys

CRATES = "crates"
NAME = r"[A-Za-z_][\w'+*/ℕ≢≤-]*"
# A lemma whose new name would be the library's own; and a name that the kit's script left half turned.
CHOSEN = {"bit-and": "bit-bit_and", "bit-or": "bit-bit_or", "after_Line": "after_line"}
RESERVED = set(
    "data record deriving module where use mod pub package open as unfoldable abbrev axiom unfold unfolding ruleset mutual "
    "infix infixl infixr elim let in do Type coe fcoe tcoe hcom com".split()
)


def files(ending):
    for folder, dirs, names in os.walk(CRATES):
        dirs[:] = sorted(d for d in dirs if d != "out")
        for name in sorted(names):
            if name.endswith(ending):
                yield os.path.join(folder, name)


def read(path):
    with open(path, encoding="utf-8") as f:
        return f.read()


def code(line):
    """The part of a line of antt before its comment."""
    m = re.search(r"(^|\s)--(\s|$)", line)
    return line[: m.start()] if m else line


def defined():
    """Names that files of specs/ and proofs/ define, and names that they take from a library."""
    own, library = set(), set()
    crates = set(os.listdir(CRATES))
    for path in files(".antt"):
        made = os.path.basename(path) in ("Answers.antt", "Invariants.antt")
        for line in read(path).split("\n"):
            line = code(line)
            use = re.match(r"\s*use ([\w.+]+)\.\{(.*)\}", line)
            if use:
                crate = re.match(r"Rattle\.(\w+)", use[1])
                if not (crate and crate[1] in crates):
                    library |= {n.strip() for n in use[2].split(",")}
                continue
            m = re.match(rf"\s*(?:(?:pub|abbrev|unfoldable|record|data)\s+)*({NAME})(?:\s+[({{].*?)?\s+:(?:\s|$)", line)
            if m and not (made and f": goal.{m[1]}" in line):
                own.add(m[1])
            own |= set(re.findall(rf"\blet ({NAME}) (?::|=)", line))
            for group in re.findall(rf"[({{]((?:{NAME}\s+)*{NAME}) : ", line):
                own |= set(group.split())
    return own, library


def turned(name):
    if name in CHOSEN:
        return CHOSEN[name]
    if name[0].isupper():
        return "".join(w[:1].upper() + w[1:] for w in name.split("-"))
    return name.replace("-", "_")


def respell(text, table):
    def one(m):
        quoted = m[0].startswith("«")
        name = m[0].strip("«»")
        new = table.get(name, name)
        return f"«{new}»" if quoted and (new in RESERVED or "-" in new) else new

    return re.sub(rf"«[^»]*»|{NAME}", one, text)


def closing(text, start):
    deep = 0
    for i in range(start, len(text)):
        deep += (text[i] == "{") - (text[i] == "}")
        if not deep:
            return i + 1
    return len(text)


def ghost_parts(text):
    """Where a .rt file speaks antt: its `ghost use` lines, clauses and ghost members."""
    blank = re.sub(r"//[^\n]*", lambda m: " " * len(m[0]), text)
    for m in re.finditer(r"(?m)^\s*(?:pub )?ghost use [^\n]*|\b(?:requires|ensures|ghost)\b(?! use)[^{};\n]*\{", blank):
        yield m.start(), (m.end() if m[0].rstrip().endswith(";") else closing(blank, m.end() - 1))


def main():
    own, library = defined()
    table = {n: turned(n) for n in own | set(CHOSEN) if "-" in n or n in CHOSEN}
    back = collections.defaultdict(set)
    for old, new in table.items():
        back[new].add(old)
    bad = [f"{sorted(olds)} fall together in {new}" for new, olds in back.items() if len(olds) > 1]
    bad += [f"{old} would be the library's {new}" for old, new in table.items() if new in library]
    bad += [f"{old} would be {new}, which there is" for old, new in table.items() if new in own and old not in CHOSEN]
    bad += [f"{old} is the library's too" for old in table if old in library]
    if bad:
        sys.exit("\n".join(sorted(bad)))
    for path in files(".antt"):
        text = read(path)
        lines = []
        for line in text.split("\n"):
            head = code(line)
            parts = re.split(r'("[^"]*")', head)
            lines.append("".join(p if p.startswith('"') else respell(p, table) for p in parts) + line[len(head) :])
        write(path, text, "\n".join(lines))
    for path in files(".rt"):
        text = read(path)
        out, at = [], 0
        for start, end in ghost_parts(text):
            if start < at:
                continue
            out += [text[at:start], respell(text[start:end], table)]
            at = end
        write(path, text, "".join(out) + text[at:])
    print("\n".join(f"{old} -> {new}" for old, new in sorted(table.items())))


def write(path, old, new):
    if old != new:
        with open(path, "w", encoding="utf-8") as f:
            f.write(new)


if __name__ == "__main__":
    main()
