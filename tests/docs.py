#!/usr/bin/env python3
"""Checks that what the documents cite is there: functions `crate::name` and `crate::Type::name`, edits
`crate/label`, names in front of a place as in `name` (crate/specs/File), which has to define them, `name`
in or (a/path), files as crate/specs/File or `Rattle.crate.specs.File`, other files and links. Prints what
is missing; exit status 1 if any. docs/DESIGN-PASS.md is left out: it sets what went beside what came."""
import glob
import os
import re
import sys

ROOT = os.path.join(os.path.dirname(os.path.abspath(__file__)), "..")
CRATES = {os.path.basename(p) for p in glob.glob(os.path.join(ROOT, "crates", "*"))}


def text(path):
    with open(path, encoding="utf-8") as f:
        return f.read()


def source(crate):
    code = "".join(text(p) for p in glob.glob(os.path.join(ROOT, "crates", crate, "src", "*.rt")))
    return re.sub(r"//[^\n]*", "", code)


def has(name, where):
    return re.search(r"(?<![\w-])%s(?![\w'-])" % re.escape(name), where) is not None


def defined(name, where):
    """A line of the file starts with the name, behind words such as `pub` or `record`."""
    start = r"^ *(?:(?:pub|abbrev|unfoldable|opaque|record|data) )*%s(?![\w'-])"
    return re.search(start % re.escape(name), where, re.M) is not None


def missing(doc):
    words = text(doc)
    for crate, names in re.findall(r"`(\w+)((?:::\w+)+)(?:\([^`]*\))?`", words):
        for name in names.split("::")[1:]:
            if crate in CRATES and not has(name, source(crate)):
                yield "%s%s" % (crate, names)
    for crate, label in re.findall(r"`(\w+)/([\w-]+)`", words):
        if crate in CRATES and not os.path.exists(os.path.join(ROOT, "crates", crate, "must-fail", label + ".edit")):
            yield "%s/%s" % (crate, label)
    # names in front of a place, several with commas between them
    names_of = r"((?:`[^`]+`(?:, | and )?)+)"
    place = names_of + r" \((?:crates/)?(\w+)/(specs|proofs)/([\w/]+)(?:\.antt)?\)"
    for names, crate, part, file in re.findall(place, words):
        path = os.path.join(ROOT, "crates", crate, part, file + ".antt")
        if not os.path.exists(path):
            # (a missing file of a crate of ours is told below)
            if crate not in CRATES or file.startswith("declared/"):
                yield "%s/%s/%s" % (crate, part, file)
            continue
        where = text(path)
        for name in re.findall(r"`([^`]+)`", names):
            if "::" not in name and not defined(name, where):
                yield "%s in %s/%s/%s" % (name, crate, part, file)
    # `declared` is no file: the toolchain makes what stands there of the code
    files = re.findall(r"(?<![\w./-])(?:crates/)?(\w+)/(specs|proofs)/([\w/]+)", words)
    files += [(c, p, f.replace(".", "/")) for c, p, f in re.findall(r"`Rattle\.(\w+)\.(specs|proofs)\.([\w.]+)`", words)]
    for crate, part, file in files:
        path = os.path.join(ROOT, "crates", crate, part, file)
        if crate in CRATES and not file.startswith("declared/") and not os.path.exists(path + ".antt"):
            yield "%s/%s/%s" % (crate, part, file)
    for names, path in re.findall(names_of + r" (?:in |\()((?:tests|bench|examples|include)/[\w./-]+\w)", words):
        for name in re.findall(r"`([^`]+)`", names):
            if os.path.isfile(os.path.join(ROOT, path)) and not has(name, text(os.path.join(ROOT, path))):
                yield "%s in %s" % (name, path)
    # NAME, LABEL and FN stand for any name
    for path in re.findall(r"(?<![\w./-])((?:crates|docs|tests|bench|examples|include)/[\w./-]*\w)", words):
        if not re.search(r"\b(?:NAME|LABEL|FN)\b", path) and not glob.glob(os.path.join(ROOT, path) + "*"):
            yield path
    for link in re.findall(r"\]\(([^)#]+)(?:#[^)]*)?\)", words):
        if not os.path.exists(os.path.join(os.path.dirname(doc), link)):
            yield "link " + link


def main():
    bad = 0
    docs = sorted(glob.glob(os.path.join(ROOT, "docs", "**", "*.md"), recursive=True)) + [os.path.join(ROOT, "README.md")]
    docs = [doc for doc in docs if os.path.basename(doc) != "DESIGN-PASS.md"]
    for doc in docs:
        for what in missing(doc):
            bad += 1
            print("%s: no %s" % (os.path.relpath(doc, ROOT), what))
    print("documents: %s" % ("ok" if bad == 0 else "%d cited and not there" % bad))
    return 1 if bad else 0


if __name__ == "__main__":
    sys.exit(main())
