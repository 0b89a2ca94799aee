#!/usr/bin/env python3
"""Writes the problems of the bench to bench/problems/*.hex. The texts are stored; this says what each of them means.

usage: make_problems.py
"""
import pathlib
import sys

HERE = pathlib.Path(__file__).resolve().parent
sys.path.insert(0, str(HERE.parent / "tests"))
from make_texts import b, home, sum_rule, w  # noqa: E402

M = 1_000_000


def pair(p, q, c):
    return "02" + b(p) + b(q) + w(c)


def apart(x, y, d):
    return "05" + b(x) + b(y) + w(d)


def step(x, m, r):
    return "06" + b(x) + w(m) + w(r)


def above(x, y, most):
    """Setting x is above setting y by at most this."""
    return pair(2 * x, 2 * y + 1, most)


def between(x, y, least, most):
    """Setting x is above setting y by least to most."""
    return [above(x, y, most), above(y, x, -least)]


def total(terms, least, most):
    """A sum of up to three terms lies from least to most."""
    terms = terms + [(0, 0)] * (3 - len(terms))
    return [sum_rule(terms, most), sum_rule([(a, -k) for a, k in terms], -least)]


def problems():
    # one setting in steps of two: the smallest problem with a search
    yield "one_setting", [home([(0, 3)]), step(0, 2, 1)]
    # two settings and two limits between them: one region, no splitting
    yield "two_settings", [home([(0, 1000), (-100, 100)]), pair(0, 2, 800), pair(2, 0, 400)]
    # eight settings of the widest range, each 300 to 900 above the one before: pairs alone
    yield "chain", [home([(-M, M)] * 8)] + [r for k in range(7) for r in between(k + 1, k, 300, 900)]
    # the same, and the last at most 2,000 above the first: the seven differences need 2,100
    yield "chain_none", [home([(-M, M)] * 8)] + [r for k in range(7) for r in between(k + 1, k, 300, 900)] + [above(7, 0, 2000)]
    # two equal settings whose sum is odd, and six that are free: only rounding to whole numbers shows that there is none
    yield "rounding_none", [home([(-M, M)] * 8)] + between(6, 7, 0, 0) + [pair(12, 14, 2001), pair(13, 15, -2001)]
    # four settings on places 0 to 3, no two alike: each of the 24 orders is a region
    yield "apart_orders", [home([(0, 3)] * 4)] + [apart(i, k, 1) for i in range(4) for k in range(i)]
    # five settings on four places: none, after every order was tried
    yield "apart_none", [home([(0, 3)] * 5)] + [apart(i, k, 1) for i in range(5) for k in range(i)]
    # six settings on five places: the longest search here that ends
    yield "apart_long", [home([(0, 4)] * 6)] + [apart(i, k, 1) for i in range(6) for k in range(i)]
    # three wide settings far from each other, in any order
    yield "apart_wide", [home([(-M, M)] * 3)] + [apart(0, 1, 700_000), apart(1, 2, 700_000), apart(0, 2, 700_000)]
    # sums with coefficients that leave a thin body
    yield "sums", [home([(-50, 50)] * 3)] + total([(0, 3), (1, -5), (2, 7)], 10, 14) + total([(0, 2), (1, 9)], -4, 4)
    # 6x + 10y + 14z = 1: the sum is even
    yield "sums_none", [home([(-6, 6)] * 3)] + total([(0, 6), (1, 10), (2, 14)], 1, 1)
    # steps of 4 and of 6 that leave even numbers, which would have to be one apart
    yield "steps_none", [home([(0, 2000)] * 2), step(0, 4, 0), step(1, 6, 2)] + between(1, 0, 1, 1)
    # the same kind of contradiction in a wide sum, 2x + 4y = 1: more than the budget can split
    yield "sums_spent", [home([(-M, M)] * 2)] + total([(0, 2), (1, 4)], 1, 1)
    # eight settings of the widest range: a pair, a step and an apart rule
    yield "wide", [home([(-M, M)] * 8), pair(0, 2, 5), step(3, 1000, 7), apart(4, 5, 100)]
    # a line of eight gates: places along the belt, order, spacing, a grid of 5 mm, loads that balance
    line = [home([(250 * k - 120, 250 * k + 120) for k in range(8)])]
    line += [r for k in range(7) for r in between(k + 1, k, 235, 265)]
    line += [step(k, 5, 0) for k in (0, 3, 7)]
    line += total([(0, 2), (3, -5), (6, 3)], 730, 770)
    line += [apart(2, 5, 760), pair(0, 15, -1740)]
    yield "line", line
    # the same with gate 5 at most 750 above gate 2, where apart asks for 760
    yield "line_none", line + [above(5, 2, 750)]
    # seven rollers: sums over neighbours, a grid for every other one, one pair that must not meet
    yield "rollers", [home([(-40, 40)] * 7)] + [r for k in range(5) for r in total([(k, 1), (k + 1, -2), (k + 2, 1)], -1, 1)] + [step(k, 3, k % 3) for k in (0, 2, 4, 6)] + [apart(0, 6, 5)]


def main():
    folder = HERE / "problems"
    folder.mkdir(exist_ok=True)
    for name, lines in problems():
        (folder / (name + ".hex")).write_text("".join(line + "\n" for line in lines))


if __name__ == "__main__":
    main()
