#!/usr/bin/env python3
"""What the octagon must answer to random homes and cuts: every point is tried, and nothing else is known.

Prints what crates/octagon_trials must print: for each octagon and its two parts the extent, the halvings, all limits of
six nodes and the least point.
usage: brute_force.py > crates/octagon_trials/stdout
"""
import itertools


class Draw:
    def __init__(self):
        self.seed = 1

    def __call__(self, below):
        self.seed = (self.seed * 6364136223846793005 + 1442695040888963407) % 2**64
        return (self.seed >> 33) % 2**32 % below


def value(x, p):
    if p // 2 >= len(x):
        return 0
    return -x[p // 2] if p % 2 else x[p // 2]


def meets(x, cut):
    p, q, c = cut
    return max(p, q) >= 2 * len(x) or value(x, p) + value(x, q) <= c


def ranges(points, n):
    return [(min(x[k] for x in points), max(x[k] for x in points)) for k in range(n)] if points else []


def show(points, n):
    r = ranges(points, n)
    extent = 0 if not points else 1 if all(a == b for a, b in r) else 2
    out = [extent, sum((b - a).bit_length() for a, b in r)]
    for p in range(6):
        for q in range(6):
            on = points and max(p, q) < 2 * n and q != p ^ 1
            out.append(max(value(x, p) + value(x, q) for x in points) if on else 0)
    if points:
        least = min(points)
        out += list(least) + [0] * (3 - n)
    print(*out)
    return r if extent == 2 else None


def main():
    draw = Draw()
    for _ in range(200):
        n = 1 + draw(3)
        lows, highs = [], []
        for _ in range(3):
            lows.append(draw(9) - 4)
            highs.append(lows[-1] + draw(5))
        cuts = []
        for _ in range(draw(6)):
            p, q = draw(6), draw(6)
            c = draw(19) - 9
            if q != p ^ 1:
                cuts.append((p, q, c))
        points = [x for x in itertools.product(*(range(a, b + 1) for a, b in list(zip(lows, highs))[:n])) if all(meets(x, t) for t in cuts)]
        r = show(points, n)
        if r is None:
            parts = points, points
        else:
            widths = [b - a for a, b in r]
            k = widths.index(max(widths))
            m = (r[k][0] + r[k][1]) // 2
            parts = [x for x in points if x[k] <= m], [x for x in points if x[k] > m]
        for part in parts:
            show(part, n)


main()
