#!/usr/bin/env python3
"""Brings the names of definitions and lemmas in specs/ and proofs/ to snake case, and the names of facts to camel case.

usage: python3 tools/respell.py [--dry]     at the top of the repository

A name with dashes that this repository declares is respelled wherever it stands in a file of specs/, proofs/ or src/,
comments aside. Names that the checker makes (goals, invariants, measures) keep their dashes; it can be run again. It
stops, and changes nothing, where two names fall together. It says where a definition gets the name of a function of
src/, as find_del does: a definition of what a function gives may have its name.
"""

import os
import re
import sys

MADE = re.compile(r"^(returns|loop|invariant|invariant-of|invariant_of|decreases|overflow|bounds|slice_bounds|Inv|prove)-")
EDGE = r"\s(){},;.\[\]"
DECLARED = re.compile(r"^\s*(?:(?:pub|abbrev|unfoldable|record|data)\s+)*([^\s:(){}.]+)\s+:(?:\s|$)")
TYPE = re.compile(r"^(?:pub )?(?:data|record)\s+(\S+)")


def files():
    for top, folders, names in os.walk("crates"):
        folders[:] = sorted(f for f in folders if f != "out")
        for name in sorted(names):
            if name.endswith((".antt", ".rt")):
                yield os.path.join(top, name)


def declared(text):
    for line in text.splitlines():
        if line.startswith(("use ", "--", "pub mod", "mod ", "unfolding")):
            continue
        for form in (DECLARED, TYPE):
            m = form.match(line)
            if m:
                yield m.group(1)


def respelled(name):
    if name[0].isupper():
        return "".join(part[0].upper() + part[1:] for part in name.split("-"))
    return name.replace("-", "_")


def turn(line, names, comment):
    code, mark, rest = line.partition(comment)
    code = re.sub(rf"(?<![^{EDGE}])([^{EDGE}]*-[^{EDGE}]*)(?![^{EDGE}])", lambda m: names.get(m.group(1), m.group(1)), code)
    return code + mark + rest


def main():
    texts = {}
    for path in files():
        with open(path, encoding="utf-8") as f:
            texts[path] = f.read()
    every = {n for p, t in texts.items() if p.endswith(".antt") for n in declared(t)}
    functions = {m for p, t in texts.items() if p.endswith(".rt") for m in re.findall(r"\bfn (\w+)", t)}
    names = {n: respelled(n) for n in every if "-" in n and not MADE.match(n)}
    taken = {}
    clashes = []
    for old, new in sorted(names.items()):
        if new in every:
            clashes.append(f"{old}: {new} stands already")
        if new in functions:
            print(f"look: {old} gets the name of a function, {new}")
        if new in taken:
            clashes.append(f"{old} and {taken[new]} both become {new}")
        taken[new] = old
    for clash in clashes:
        print("clash: " + clash)
    if clashes:
        raise SystemExit(1)
    for old, new in sorted(names.items()):
        print(f"{old} {new}")
    if "--dry" in sys.argv:
        return
    for path, text in texts.items():
        comment = "-- " if path.endswith(".antt") else "//"
        out = "\n".join(turn(line, names, comment) for line in text.split("\n"))
        if out != text:
            with open(path, "w", encoding="utf-8") as f:
                f.write(out)


main()
