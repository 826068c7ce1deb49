#!/usr/bin/env python3
"""Brings the names of this repository's own definitions and lemmas to the spelling of the kit.

usage: python3 tools/respell.py        at the top of a checkout of the ported sources, once

respell.tsv beside it has a line for each name: the old one, the new one, and `field` for a field of a record. Types are in
upper camel case and everything else in snake case; in the name of a lemma a dash joins the names of two definitions.
Functions of src/, what the check names after them, strings and inputs keep their names. In README.md and docs/ what stands
between backquotes is turned too.
"""

import glob
import os
import re

WORD = re.compile(r"[A-Za-z_][A-Za-z0-9_']*(?:-[A-Za-z0-9_']+)*")
PATH = re.compile(r"(?:Rattle|crate)[.\w'-]*\.$")


def table():
    new, fields = {}, set()
    with open(os.path.join(os.path.dirname(os.path.realpath(__file__)), "respell.tsv"), encoding="utf-8") as f:
        for line in f:
            old, to, kind = line.rstrip("\n").split("\t")
            new[old] = to
            if kind:
                fields.add(old)
    return new, fields


def turned(text, new, fields, rust):
    """Behind a dot a name stands for what the check generated, unless it is a field or the dot is that of a path."""
    strings = [(m.start(), m.end()) for m in re.finditer(r'"(?:\\.|[^"\\])*"', text)] if rust else []
    out, at = [], 0
    for m in WORD.finditer(text):
        word = m.group(0)
        if word not in new or any(a <= m.start() < b for a, b in strings):
            continue
        before = text[max(0, m.start() - 200) : m.start()]
        if before.endswith(".") and word not in fields and not PATH.search(before):
            continue
        out += [text[at : m.start()], new[word]]
        at = m.end()
    return "".join(out) + text[at:]


def main():
    new, fields = table()
    sources = [p for kind in ("src/**/*.rt", "specs/**/*.antt", "proofs/**/*.antt") for p in glob.glob("crates/*/" + kind, recursive=True)]
    for path in sorted(sources) + ["README.md"] + sorted(glob.glob("docs/*.md")):
        with open(path, encoding="utf-8") as f:
            text = f.read()
        if path.endswith(".md"):
            after = re.sub(r"`[^`\n]+`", lambda m: turned(m.group(0), new, fields, False), text)
        else:
            after = turned(text, new, fields, path.endswith(".rt"))
        if after != text:
            with open(path, "w", encoding="utf-8") as f:
                f.write(after)


if __name__ == "__main__":
    main()
