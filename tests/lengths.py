#!/usr/bin/env python3
"""What crates/lengths must print, by tests/reference.py: the entry point at several output lengths and budgets."""
import sys

from reference import solve

TEXT = b"01010000000000000028\n06000000000200000001\n02000000000048\n"
for size, budget in [(s, 10_000) for s in (0, 1896, 1897, 3778, 3779, 30126, 30127)] + [(30127, b) for b in (0, 1, 7, 35, 4_294_967_295)]:
    answer = solve(TEXT, budget, size)
    sys.stdout.write("length %d, budget %d: %d bytes\n%s" % (size, budget, len(answer), answer))
