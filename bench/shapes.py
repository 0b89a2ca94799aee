#!/usr/bin/env python3
"""The search at either shape, the octagon and the interval box: outcome, steps and regions of each problem.

usage: shapes.py FILE..    for each problem two lines, octagon and box: name, shape, outcome, steps, regions

Both are runs of the proved solver in a program calls (`rt run` in its folder), which is not in this repository yet: open at the shape, state each rule, begin, run
once, with the entry point's budget and places. Without that program nothing is written.
"""
import pathlib
import subprocess
import sys

CALLS = pathlib.Path(__file__).resolve().parent.parent / "crates/calls/out/calls"
SHAPES = {"octagon": "00", "box": "01"}
BUDGET, PLACES, ROOM = 10_000, 169, 16


def sequence(text, shape):
    """The calls that solve a problem: their number, the places lent (rules, checkpoints, stack, list), what they take."""
    home, *rules = text.split()
    lent = "%02X%02X%02X%02X" % (32, 4, PLACES, ROOM)
    lines = ["00" + SHAPES[shape] + home]
    lines += ["01" + lent + rule for rule in rules]
    lines += ["05" + lent, "06" + lent + "%08X" % BUDGET]
    return "\n".join(lines) + "\n"


def played(answer):
    """(outcome, steps, regions) of each sequence: the end line of its one run, and the points before it."""
    regions = 0
    for line in answer.split():
        if len(line) == 32:  # the slices' digests, told after every call
            continue
        if line.startswith("10"):
            regions += 1
        if line.startswith("1F"):
            yield int(line[2:4], 16), int(line[6:14], 16), regions
            regions = 0


def main():
    if not CALLS.exists():
        return
    texts = {pathlib.Path(name).stem: pathlib.Path(name).read_text() for name in sys.argv[1:]}
    asked = [(name, shape) for name in texts for shape in SHAPES]
    sequences = "\n".join(sequence(texts[name], shape) for name, shape in asked)
    answer = subprocess.run([CALLS], input=sequences, capture_output=True, check=True, text=True).stdout
    figures = list(played(answer))
    if len(figures) != len(asked):
        sys.exit("calls answered %d runs of %d" % (len(figures), len(asked)))
    for names, numbers in zip(asked, figures):
        print(*names, *numbers)


if __name__ == "__main__":
    main()
