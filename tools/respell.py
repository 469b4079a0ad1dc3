#!/usr/bin/env python3
"""Brings this repository's own definitions and lemmas to snake case: respell.py, once, at the top, right after port.py.

A name is respelled where one of our own files declares it: words in snake case (`laid-link` is `laid_link`, `rateOf` is
`rate_of`), the theorem of a function f is `f_spec`, a prime is an apostrophe. Left as they are: types and modules (upper
camel case), names that a library has too, names that the toolchain makes of the code (in proofs/F/Proof.antt the
answers, whose type is `tie.Need-..`), and all of src/ but what its clauses cite.
"""

import glob
import os
import re
import sys

DECLARED = re.compile(r"^\s*(?:(?:abbrev|unfoldable|private|pub|record|data)\s+)*([^\s:(){}]+)\s*:\s(.*)")
TOKEN = re.compile(r"[^\s(){}\[\],;.:\"`⌜⌝⟦⟧⟨⟩]+")
IMPORT = re.compile(r"use ([\w.·]+?)(?:\.\{([^}]*)\})?(?: as [^\s;]+)?;?\s*$")


# Two names that would fall together: the test of a case and the theorem that finds one, a channel's rates and a file's.
APART = {"short-case": "short_has_case", "ratesOf": "rates_in_order"}


def snake(name):
    if name in APART:
        return APART[name]
    name = name.replace("′", "'")
    if name[0].isupper() and "-" not in name:
        return name
    return re.sub(r"([a-z0-9])([A-Z])", r"\1_\2", name).replace("-", "_").lower()


def files():
    for ending in ("antt", "rt"):
        yield from sorted(p for p in glob.glob(f"crates/*/**/*.{ending}", recursive=True) if "/out/" not in p)


def read(path):
    with open(path, encoding="utf-8") as f:
        return f.read()


def walks(path):
    """Whether a file is the proof of a function, which cites what the toolchain makes of its code."""
    return path.endswith("/Proof.antt")


def declared(paths):
    names = set()
    for p in paths:
        if not p.endswith(".antt"):
            continue
        for line in read(p).splitlines():
            m = DECLARED.match(line)
            if m and not line.lstrip().startswith("--"):
                if walks(p) and (m[2].startswith("tie.") or m[1].endswith("-spec")):
                    continue
                names.add(m[1])
    return names


def foreign(paths, own):
    """What is imported from a library that is not ours."""
    names = set()
    for p in paths:
        for line in read(p).splitlines():
            m = IMPORT.search(line)
            if m and m[2] and m[1].split(".")[:2] not in [["Rattle", c] for c in own]:
                names.update(n.split(" as ")[0].strip() for n in m[2].split(","))
    return names


def theorem(word):
    return word[:-5].replace("-", "_") + "_spec"


def respelled(path, text, table):
    functions = set()
    if walks(path):
        functions = {m[1] for m in (DECLARED.match(l) for l in text.splitlines()) if m and m[1].endswith("-spec")}

    def word(m):
        w = m[0]
        return theorem(w) if w in functions else table.get(w, w)

    def line(l):
        code, mark, comment = l.partition("--" if path.endswith(".antt") else "//")
        if mark:
            comment = re.sub(r"`[^`]*`", lambda m: TOKEN.sub(word, m[0]), comment)
        return TOKEN.sub(word, code) + mark + comment

    return "\n".join(line(l) for l in text.split("\n"))


def main():
    paths = list(files())
    own = sorted(os.listdir("crates"))
    names = declared(paths)
    kept = foreign(paths, own)
    table = {n: snake(n) for n in names if n not in kept and snake(n) != n}
    for p in paths:
        old = read(p)
        new = respelled(p, old, table)
        if new != old:
            with open(p, "w", encoding="utf-8") as f:
                f.write(new)
    taken = {}
    for n in sorted(names):
        taken.setdefault(table.get(n, n), []).append(n)
    for t, ns in sorted(taken.items()):
        if len(ns) > 1:
            print(f"together: {t}: {', '.join(ns)}")
    print(f"respell: {len(table)} names", file=sys.stderr)


if __name__ == "__main__":
    main()
