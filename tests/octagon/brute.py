#!/usr/bin/env python3
"""What small octagons answer, found by listing their points. It shares no code with the solver.

An octagon is the set of its points: limits are maxima over them, the offer is the least, and the parts are the points on
either side of the middle of the widest range.
usage: brute.py > crates/octagon_probe/stdout
"""
from itertools import product

PRIME = 1_000_003
RANGES = [(-2, 2), (-3, 2), (-2, 3)]


def at(point, node):
    return -point[node // 2] if node % 2 else point[node // 2]


def cut(n, points, p, q, c):
    if max(p, q) >= 2 * n:
        return points
    return [x for x in points if at(x, p) + at(x, q) <= c]


def tie(n, points, p, q, c, d):
    """v(p) + v(q) is at most c and at least -d."""
    return [x for x in cut(n, points, p, q, c) if max(p, q) >= 2 * n or at(x, p) + at(x, q) >= -d]


def spans(n, points):
    return [(min(x[k] for x in points), max(x[k] for x in points)) for k in range(n)] if points else []


def limits(n, points):
    for p, q in product(range(8), repeat=2):
        opposite = p // 2 == q // 2 and p != q
        if not points or max(p, q) >= 2 * n or opposite:
            yield 0
        else:
            yield max(at(x, p) + at(x, q) for x in points)


def halvings(n, points):
    """For each range the least number of doublings from 1 that reaches its count of values."""
    return sum(next(b for b in range(8) if 2**b >= high - low + 1) for low, high in spans(n, points))


def answers(n, points):
    yield n
    yield min(len(points), 2)
    yield halvings(n, points)
    yield from limits(n, points)
    for k in range(4):
        yield from spans(n, points)[k] if points and k < n else (0, 0)
    held = set(points)
    for size in range(1, 4):
        for x in product(range(-3, 3), repeat=3):
            yield 1 if x[:size] in held else 0
    yield from (n, *min(points), *[0] * (8 - n)) if points else (-1,)


def parts(n, points):
    if len(points) < 2:
        return points, points
    widths = [high - low for low, high in spans(n, points)]
    k = widths.index(max(widths))
    middle = sum(spans(n, points)[k]) // 2
    return [x for x in points if x[k] <= middle], [x for x in points if x[k] > middle]


def probe(n, a, b, c):
    digest = 0
    for d in range(-3, 4):
        points = list(product(*[range(low, high + 1) for low, high in RANGES[:n]]))
        points = tie(n, points, 0, 3, a, -a)
        points = tie(n, points, 2, 5, b, 1 - b)
        points = tie(n, points, 0, 2 * n - 2, c, d)
        for part in (points, *parts(n, points)):
            for x in answers(n, part):
                digest = (digest * 31 + x + 3_000_000_000) % PRIME
    return digest


for n, a, b, c in product(range(1, 4), range(3), range(3), range(7)):
    print(n, a, b, c, probe(n, a - 1, b - 1, c - 3))
