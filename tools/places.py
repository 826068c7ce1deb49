#!/usr/bin/env python3
"""Lists the places in crates/*/src where today's forms may be plainer, by the points of docs/DESIGN-PASS.md.

    tools/places.py [COMMIT] [--list]

Counts those of a commit, or of the working tree without one; --list prints each place. Patterns only: what is found is a
place to look at.
"""
import re
import subprocess
import sys
from collections import Counter

FN = re.compile(r"^( *)(?:pub(?:\(crate\))? )?fn (\w+)(?:<[^>]*>)?\(([^{]*?)\)(?: -> ([^\n{]*))?$", re.M | re.S)


def files(commit):
    where = ["git", "ls-tree", "-r", "--name-only", commit, "crates"] if commit else ["git", "ls-files", "crates"]
    names = subprocess.run(where, capture_output=True, text=True, check=True).stdout.split()
    for name in names:
        if "/src/" in name and name.endswith(".rt"):
            if commit:
                yield name, subprocess.run(["git", "show", f"{commit}:{name}"], capture_output=True, text=True, check=True).stdout
            else:
                yield name, open(name).read()


def at(name, text, place):
    return f"{name}:{text.count(chr(10), 0, place) + 1}"


def by_pattern(sources, pattern):
    return [(at(n, t, m.start()), " ".join(m.group(0).split())[:110]) for n, t in sources for m in re.finditer(pattern, t, re.M)]


def functions(sources):
    for name, text in sources:
        for m in FN.finditer(text):
            yield at(name, text, m.start()), m.group(2), " ".join(m.group(3).split()), (m.group(4) or "").strip()


def flags(sources):
    """Fields that say yes or no."""
    found = []
    for name, text in sources:
        for m in re.finditer(r"^(?:pub(?:\(crate\))? )?struct \w+[^;({]*\{(.*?)^\}", text, re.M | re.S):
            found += [(at(name, text, m.start(1) + f.start(1)), f.group(1)) for f in re.finditer(r"(\w+): bool", m.group(1))]
    return found


def clauses(sources):
    """Clauses that stand in three functions or more, letter for letter."""
    found = Counter()
    for _, text in sources:
        for m in re.finditer(r"^ +(requires|ensures)(?: \w+)? (\{.*\})$", text, re.M):
            found[m.group(1) + " " + m.group(2)] += 1
    return [(f"{n} times", clause) for clause, n in found.most_common() if n >= 3]


def together(sources, names):
    """Functions that take all of these parameters."""
    return [(place, fn) for place, fn, params, _ in functions(sources) if all(re.search(rf"\b{n}: ", params) for n in names)]


def points(sources):
    mutable_bool = [(p, f) for p, f, params, answer in functions(sources) if "&mut" in params and answer == "bool"]
    return [
        ("1 own enums", by_pattern(sources, r"^ *(pub(\(crate\))? )?enum \w+")),
        ("1 a flag beside what is written (-> bool with &mut)", mutable_bool),
        ("1 a flag in a struct", flags(sources)),
        ("1 an error handed on by hand", by_pattern(sources, r"Err\(\w*\) => (return )?(Err\(|\{\s*return Err)|if \w+\.is_some\(\) \{\s*return|Some\(\w+\) => Some\(|Ok\(\(\)\) => Ok\(\(\)\)|Ok\(\w+\) => Ok\(")),
        ("3 loops by index or by hand", by_pattern(sources, r"^ *(while .*|loop \{|for \w+ in \d+\.\..*)$")),
        ("3 counters by hand", by_pattern(sources, r"^ *\w+ [+-]= 1;$|^ *n \+= 1;$")),
        ("4 comparisons and conversions by hand", by_pattern(sources, r"fn (less|least|most|negative|narrow|fitting|eq|cmp)\b|\bas (usize|u32|u64|i64|i128)\b")),
        ("5 rows with counts", together(sources, ["rows", "counts"])),
        ("5 a table with counts", together(sources, ["table", "counts"])),
        ("5 a step with its way", together(sources, ["step", "way"])),
        ("5 clauses that stand three times or more", clauses(sources)),
        ("6 a length beside a buffer", by_pattern(sources, r"\[\w*(\.\.|0\.\.)[kmnj]\]")),
        ("6 fixed arrays", by_pattern(sources, r"\[0(i64|u8)?; \d+\]")),
        ("7 a switch on a way", by_pattern(sources, r"match (\w+\.)?way\b")),
    ]


def main():
    arguments = [a for a in sys.argv[1:] if a != "--list"]
    sources = list(files(arguments[0] if arguments else None))
    for point, places in points(sources):
        print(f"{len(places):4}  {point}")
        if "--list" in sys.argv:
            for place in places:
                print("        " + "  ".join(place))


main()
