#!/usr/bin/env python3
"""Brings the names that respell.py left to snake case: respell_rest.py, once, at the top, some time after it.

They are constructors that are declared several on a line, declarations whose type stands on the next line, and bound
variables of proofs. In pages and comments only what stands between backquotes is respelled.
"""

import glob
import re

NAMES = (
    "a-channel a-rate a-relation a-task "
    "cases-decide digits-left first-in first-job given-at-least giver-later good-front here-p here-q hunt-finds is-case "
    "jobs-few least-figures length-is long-refused phase-decides some-q stays-unbroken total-folded "
    "L-pos no-case none-late range-is over-full yes-it ok-moves some-moved"
).split()
TABLE = {n: n.replace("-", "_").replace("L_", "l_") for n in NAMES}
TOKEN = re.compile(r"(?<![\w'₀-₉-])(%s)(?![\w'₀-₉-])" % "|".join(sorted(TABLE, key=len, reverse=True)))
QUOTED = re.compile(r"`[^`\n]*`")
COMMENT = {".antt": "--", ".rt": "//"}


def respelled(text):
    return TOKEN.sub(lambda m: TABLE[m[1]], text)


def quoted(text):
    return QUOTED.sub(lambda m: respelled(m[0]), text)


def line(text, mark):
    code, found, comment = text.partition(mark)
    return respelled(code) + found + quoted(comment)


def main():
    sources = [p for e in ("antt", "rt", "edit") for p in glob.glob(f"crates/*/**/*.{e}", recursive=True) if "/out/" not in p]
    pages = [p for p in glob.glob("docs/*.md") + ["README.md"] if not p.endswith("PORT.md")]
    for p in sources + pages:
        with open(p, encoding="utf-8") as f:
            old = f.read()
        mark = next((m for e, m in COMMENT.items() if p.endswith(e)), None)
        if p in pages:
            new = quoted(old)
        elif mark:
            new = "\n".join(line(l, mark) for l in old.split("\n"))
        else:
            new = respelled(old)
        if new != old:
            with open(p, "w", encoding="utf-8") as f:
                f.write(new)


if __name__ == "__main__":
    main()
