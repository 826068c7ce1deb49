#!/usr/bin/env python3
"""Prints the least table of ranges of a program, as text.

    bench/least.py PROGRAM > TABLE

In plain rounds: at first it is known that all variables are 0 at place 0, and that nothing comes to any other place. In
each round every step whose place has changed makes its ranges, as docs/RANGES.md says, and the places to which it leads
are widened by them, and by no more. When nothing changes any longer, each step is carried, so the table holds; and since
nothing was widened without need, it is the least one.

A loop that counts to 65,536 takes as many rounds: some seconds for the programs here. There is no limit on the rounds, so
a program that counts without a limit takes for ever. Nothing here is proved; `execute --check` says whether a table holds.
"""

import re
import sys

LOW, HIGH = -2**63, 2**63 - 1
ALL = (LOW, HIGH)
SET, ADD, SUB, MUL, LOAD, STORE, ASK, SHOW, GO, LESS, STOP = range(11)
# what stands behind the kind: a variable, an array, a place, a number or an operand
ROWS = ["xe", "xef", "xef", "xce", "xAe", "Aef", "x", "e", "p", "pef", ""]
WORDS = ["set {x} = {e}", "add {x} = {e} + {f}", "sub {x} = {e} - {f}", "mul {x} = {c} * {e}", "load {x} = {A}[{e}]",
         "store {A}[{e}] = {f}", "ask {x}", "show {e}", "go {p}", "less {e} < {f} to {p}", "stop"]


def read(text):
    """The number of variables, the lengths of the arrays and the steps of a program that is known to be one. A step is its
    kind and what stands behind it; an operand is whether it is a variable, and the number."""
    rows = iter([int(word) for word in re.sub(r"#[^\n]*", "", text).split()])
    variables = next(rows)
    lengths = [next(rows) for _ in range(next(rows))]
    steps = []
    for _ in range(next(rows)):
        kind = next(rows)
        steps.append((kind, {part: (next(rows) == 1, next(rows)) if part in "ef" else next(rows) for part in ROWS[kind]}))
    return variables, lengths, steps


def words(step):
    kind, parts = step
    spell = {"x": "v{}", "A": "a{}", "c": "{}", "p": "{}"}
    return WORDS[kind].format(**{
        part: ("v{}" if it[0] else "{}").format(it[1]) if part in "ef" else spell[part].format(it)
        for part, it in parts.items()})


def both(a, b):
    """A range cut to another, or None if nothing is left."""
    cut = max(a[0], b[0]), min(a[1], b[1])
    return cut if cut[0] <= cut[1] else None


def given(box, x, range_):
    """The box with this range for x; None, if there is none."""
    return box and range_ and box[:x] + (range_,) + box[x + 1:]


def span(box, operand):
    variable, n = operand
    return box[n] if variable else (n, n)


def cut(box, operand, to):
    """The box with the operand cut; None, if nothing is left."""
    if box is None:
        return None
    left = both(span(box, operand), to)
    return given(box, operand[1], left) if operand[0] else left and box


def ways(step, place, lengths, box):
    """What the step makes of a box: the places to which it leads, each with a box, or None if nothing goes on."""
    kind, parts = step
    x, p = parts.get("x"), parts.get("p")
    (e1, e2), (f1, f2) = (span(box, parts[part]) if part in parts else ALL for part in "ef")
    if kind == SET:
        made = given(box, x, (e1, e2))
    elif kind == ADD:
        made = given(box, x, both((e1 + f1, e2 + f2), ALL))
    elif kind == SUB:
        made = given(box, x, both((e1 - f2, e2 - f1), ALL))
    elif kind == MUL:
        made = given(box, x, both(tuple(sorted((parts["c"] * e1, parts["c"] * e2))), ALL))
    elif kind == LOAD:
        made = given(cut(box, parts["e"], (0, lengths[parts["A"]] - 1)), x, ALL)
    elif kind == STORE:
        made = cut(box, parts["e"], (0, lengths[parts["A"]] - 1))
    elif kind == ASK:
        made = given(box, x, ALL)
    elif kind == SHOW:
        made = box
    elif kind == GO:
        return [(p, box)]
    elif kind == LESS:
        e, f = parts["e"], parts["f"]
        return [(p, cut(cut(box, e, (LOW, f2 - 1)), f, (e1 + 1, HIGH))),
                (place + 1, cut(cut(box, e, (f1, HIGH)), f, (LOW, e2)))]
    else:
        return []
    return [(place + 1, made)]


def widened(known, box):
    if known is None:
        return box
    return tuple((min(a, c), max(b, d)) for (a, b), (c, d) in zip(known, box))


def least(variables, lengths, steps):
    """What is known at each place: a box, or None if nothing comes there."""
    table = [((0, 0),) * variables] + [None] * len(steps)
    changed = {0}
    while changed:
        now, changed = sorted(changed), set()
        for place in now:
            if place == len(steps):
                continue
            for to, box in ways(steps[place], place, lengths, table[place]):
                if box is not None:
                    wider = widened(table[to], box)
                    if wider != table[to]:
                        table[to] = wider
                        changed.add(to)
    return table


def main():
    if len(sys.argv) != 2:
        sys.exit("usage: least.py PROGRAM")
    with open(sys.argv[1], encoding="utf-8") as file:
        variables, lengths, steps = read(file.read())
    rows = []
    for box in least(variables, lengths, steps):
        rows.append([1, *sum(box, ())] if box else [0] * (1 + 2 * variables))
    widths = [max(len(str(row[i])) for row in rows) for i in range(1 + 2 * variables)]
    name = sys.argv[1].split("/")[-1]
    print(f"# The least table for {name}, made by least.py: from and to for each variable at each place.")
    for place, row in enumerate(rows):
        columns = [str(number).rjust(width) for number, width in zip(row, widths)]
        line = columns[0] + "".join("  " + a + " " + b for a, b in zip(columns[1::2], columns[2::2]))
        note = words(steps[place]) if place < len(steps) else "end"
        print(f"{line}    # {place} {note}{'' if row[0] else '; nothing comes there'}")


main()
