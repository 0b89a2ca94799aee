#!/usr/bin/env python3
"""What crates/portions must print, by tests/reference.py: a search in portions on slices of several sizes."""
from reference import IntervalBox, range_of, run

RULES = [("apart", 0, 1, 3), ("step", 0, 2, 1), ("sum", [(0, 3), (1, -2), (0, 0)], 12)]


def search(places, room, budget):
    print("stack %d, list %d, budget %d" % (places, room, budget))
    stack, found = [IntervalBox([(0, 9), (0, 7)])], False
    for _ in range(5):
        outcome, steps, out = run(RULES, stack, room, places, budget)
        found = found or bool(out)
        print("outcome %d after %d steps, found %s" % (outcome, steps, str(found).lower()))
        for s, x in out:
            (a, b), (c, d) = range_of(s, 0), range_of(s, 1)
            print("  %d to %d, %d to %d; point %d %d" % (a, b, c, d, x[0], x[1]))


for case in ((12, 12, 1000), (12, 3, 1000), (12, 12, 4), (2, 12, 1000), (1, 12, 1000), (8, 1, 7)):
    search(*case)
