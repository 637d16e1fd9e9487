#!/usr/bin/env python3
"""Spells the repository's own definitions, lemmas and local names as the library does.

usage: python3 tools/respell.py          at the top of the repository, after the kit's port.py; rewrites crates/ in place
       python3 tools/respell.py --list   prints each old name and its new one, and the names that would fall together

A value or a lemma is in snake case, a type or a fact in upper camel case. Names of src/, of generated goals and steps, and of
the library keep their spelling: only a name that a file of specs/ or proofs/ declares is respelled. Comments stay.
"""

import os
import re
import sys

TOKEN = re.compile(r"[^\s(){}\[\].,;:=«»\"|λ→×≡]+")
HEAD = re.compile(r"^(\s*)(?:(?:pub|abbrev|unfoldable)\s+)*([^\s:(){}.,;=]+)\s*:(?!\w)\s*(.*)$")
TYPE = re.compile(r"^\s*(?:(?:pub|abbrev|unfoldable)\s+)*(?:data|record)\s+([^\s:(){}.,;=]+)")
LET = re.compile(r"\blet ([^\s:(){}.,;=]+)\s*[:=]")
BINDER = re.compile(r"[({]([^\s(){}:.,;=|][^(){}:.,;=|]*?) : ")
OWN = re.compile(r"^[A-Za-z][A-Za-z0-9'-]*$")


def files(ending):
    for folder, dirs, names in os.walk("crates"):
        dirs[:] = sorted(d for d in dirs if d != "out")
        for name in sorted(names):
            if name.endswith(ending):
                yield os.path.join(folder, name)


def respelled(name):
    parts = name.split("-")
    if name[0].isupper():
        return "".join(p[:1].upper() + p[1:] for p in parts)
    joined = "_".join(parts)
    return re.sub(r"(?<=[a-z0-9])([A-Z])", lambda m: "_" + m.group(1).lower(), joined)


def declared():
    found = set()
    for path in files(".antt"):
        with open(path, encoding="utf-8") as text:
            for line in text:
                line = line.split("--")[0] if line.lstrip().startswith("--") else line
                head = HEAD.match(line)
                if head and not head.group(3).startswith("goal."):
                    found.add(head.group(2))
                kind = TYPE.match(line)
                if kind:
                    found.add(kind.group(1))
                found.update(LET.findall(line))
                for names in BINDER.findall(line):
                    found.update(names.split())
    return {n for n in found if OWN.match(n) and respelled(n) != n}


def library_names():
    """What the files import from the library keeps its spelling, wherever else it is declared."""
    taken = set()
    line_of = re.compile(r"use (Rattle\.std\.[^{;]*|borrow\.[^{;]*|denote\.[^{;]*)\{([^}]*)\}")
    for ending in (".antt", ".rt"):
        for path in files(ending):
            with open(path, encoding="utf-8") as text:
                for _, names in line_of.findall(text.read()):
                    taken.update(n.strip() for n in names.split(","))
    return taken


def rewritten(text, table, comment, of_function):
    def spelled(m):
        # a step of a function's proof, as c.step-at, is named after the code
        before = m.string[max(0, m.start() - 3):m.start()]
        is_step = of_function and re.search(r"(?:^|[^\w'-])c\.$", before)
        return m.group(0) if is_step else table.get(m.group(0), m.group(0))

    lines = []
    for line in text.split("\n"):
        at = line.find(comment)
        code, rest = (line, "") if at < 0 else (line[:at], line[at:])
        lines.append(TOKEN.sub(spelled, code) + rest)
    return "\n".join(lines)


def main():
    taken = library_names()
    table = {n: respelled(n) for n in declared() if n not in taken}
    every = set()
    for ending in (".antt", ".rt"):
        for path in files(ending):
            with open(path, encoding="utf-8") as text:
                every.update(TOKEN.findall(text.read()))
    if "--list" in sys.argv:
        for old in sorted(table):
            print(old, table[old])
        new = {}
        for old in table:
            new.setdefault(table[old], []).append(old)
        for name in sorted(new):
            if len(new[name]) > 1 or name in every:
                print("together:", name, *sorted(new[name]), "(stands already)" if name in every else "")
        return
    for ending, comment in ((".antt", "-- "), (".rt", "//")):
        for path in files(ending):
            with open(path, encoding="utf-8") as text:
                old = text.read()
            new = rewritten(old, table, comment, re.search(r"/proofs/.+/", path))
            if new != old:
                with open(path, "w", encoding="utf-8") as text:
                    text.write(new)


main()
