#!/usr/bin/env python3
"""Respells the repository's own definitions and lemmas as today's Rattle spells names.

usage: python3 tools/respell.py     at the top of the repository, once, after the toolchain's port.py

A definition, a lemma or a field of specs/ and proofs/ that is written with dashes gets underscores, a type or a fact
that is written with dashes gets the camel case of its words, and a lemma that begins with a fact's name, as All-hold,
stays. Functions of src/, strings, comments of src/, inputs and outputs keep their names. Names that a file takes from
elsewhere (the library, the logic), and names that the check generates, are left alone. It prints what it renamed.
"""

import os
import re
import sys

# Names whose plain respelling would meet another name: a definition of the logic, a field of a struct.
CHOSEN = {"bit-and": "bit_of_and", "bit-xor": "bit_of_xor", "graph-part": "part_of_graph"}

# Names that begin with a fact's name and say something of it.
LEMMAS_OF_FACTS = re.compile(r"^(All)-")

# Generated steps: the value of `lowest` or `list` at a branch.
GENERATED = {"lowest-is", "list-is"}

DECLARED = re.compile(r"^\s*(?:(?:abbrev|unfoldable)\s+)?(?:pub\s+)?(?:(?:record|data)\s+)?([A-Za-z][\w'\-]*)\s*(?::\s|\(\w[^()]*:|\{\w[^{}]*:)")
IMPORT = re.compile(r"\buse ([^\s{]+)\.\{([^}]*)\}")
TOKEN = re.compile(r"[\w'][\w'\-]*")


def files(kinds):
    for folder, dirs, names in os.walk("crates"):
        dirs[:] = sorted(d for d in dirs if d != "out")
        for name in sorted(names):
            if name.endswith(kinds):
                yield os.path.join(folder, name)


def read(path):
    with open(path, encoding="utf-8") as f:
        return f.read()


def is_own(module):
    parts = module.split(".")
    return parts[0] == "Rattle" and len(parts) > 1 and os.path.isdir(os.path.join("crates", parts[1]))


def imported_from_elsewhere(text):
    found = set()
    for module, names in IMPORT.findall(text):
        if not is_own(module):
            found |= {n.strip().split(" as ")[-1].strip() for n in names.split(",")}
    return found


def declared():
    """Each declared name with a dash, and whether it is a type or a fact."""
    found = {}
    for path in files(".antt"):
        text = read(path)
        elsewhere = imported_from_elsewhere(text)
        for line in text.splitlines():
            m = DECLARED.match(line)
            if not m or line.lstrip().startswith("--") or " : goal." in line or "-" not in m.group(1):
                continue
            if m.group(1) not in elsewhere and not line.rstrip().endswith(")"):
                found[m.group(1)] = True
            elif m.group(1) not in elsewhere and ":" in line.split(m.group(1), 1)[1][:3]:
                found[m.group(1)] = True
    return sorted(found)


def respelled(name):
    if name in CHOSEN:
        return CHOSEN[name]
    if LEMMAS_OF_FACTS.match(name):
        return name
    if name[0].isupper():
        return "".join(w[0].upper() + w[1:] for w in name.split("-"))
    return name.replace("-", "_")


def turn(text, names, elsewhere):
    def one(m):
        word = m.group(0)
        before = text_here[max(0, m.start() - 1):m.start()]
        if word not in names or word in elsewhere or word in GENERATED and before == ".":
            return word
        return names[word]

    text_here = text
    return TOKEN.sub(one, text)


def turn_source(text, names, elsewhere):
    """Only the clauses and imports of a source file: what stands in a string or a comment stays."""
    out = []
    for line in text.splitlines(keepends=True):
        at = re.search(r'//|b?"', line)
        cut = at.start() if at else len(line)
        out.append(turn(line[:cut], names, elsewhere) + line[cut:])
    return "".join(out)


def main():
    names = {n: respelled(n) for n in declared()}
    names = {n: to for n, to in names.items() if n != to}
    back = {}
    for n, to in names.items():
        back.setdefault(to, []).append(n)
    clash = {to: ns for to, ns in back.items() if len(ns) > 1}
    taken = set()
    for path in files(".antt"):
        for line in read(path).splitlines():
            m = DECLARED.match(line)
            if m and " : goal." not in line:
                taken.add(m.group(1))
    clash.update({to: ns for to, ns in back.items() if to in taken and to not in clash})
    if clash:
        print("names that fall together:", clash, file=sys.stderr)
        return 1
    for path in files((".antt", ".rt")):
        text = read(path)
        elsewhere = imported_from_elsewhere(text)
        new = turn(text, names, elsewhere) if path.endswith(".antt") else turn_source(text, names, elsewhere)
        if new != text:
            with open(path, "w", encoding="utf-8") as f:
                f.write(new)
    for n in sorted(names):
        print(n, names[n])
    return 0


if __name__ == "__main__":
    sys.exit(main())
