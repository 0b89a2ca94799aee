#!/usr/bin/env python3
"""What small interval boxes answer, found by listing their points. It shares no code with the solver.

A box is the set of its points. A cut keeps the points that meet it and then fills up to the smallest box around them,
which is what bounding each value by the least of the other comes to. Limits are maxima over all points.
usage: brute.py > crates/box_probe/stdout
"""
from itertools import product

PRIME = 1_000_003


def mixed(digest, x):
    return (digest * 31 + x + 3_000_000_000) % PRIME


def at(point, node):
    return -point[node // 2] if node % 2 else point[node // 2]


def opposite(p, q):
    return p // 2 == q // 2 and p != q


class Box:
    def __init__(self, n, points):
        self.n = n
        self.points = set(points)

    def values(self, k):
        return sorted({point[k] for point in self.points})

    def with_points(self, points):
        """The smallest box around the points."""
        around = [sorted({point[k] for point in points}) for k in range(self.n)]
        if not points:
            return Box(self.n, [])
        return Box(self.n, product(*[range(v[0], v[-1] + 1) for v in around]))

    def cut(self, p, q, c):
        if p >= 2 * self.n or q >= 2 * self.n:
            return self
        return self.with_points([x for x in self.points if at(x, p) + at(x, q) <= c])

    def extent(self):
        return min(len(self.points), 2)

    def limit(self, p, q):
        if not self.points or p >= 2 * self.n or q >= 2 * self.n or opposite(p, q):
            return 0
        return max(at(x, p) + at(x, q) for x in self.points)

    def range(self, k):
        if not self.points or k >= self.n:
            return 0, 0
        return self.values(k)[0], self.values(k)[-1]

    def halvings(self):
        total = 0
        for k in range(self.n):
            left = len(self.values(k))
            while left > 1:
                left = (left + 1) // 2
                total += 1
        return total

    def split(self):
        if self.extent() < 2:
            return self, self
        counts = [len(self.values(k)) for k in range(self.n)]
        k = counts.index(max(counts))
        first = set(self.values(k)[: (counts[k] + 1) // 2])
        return (
            Box(self.n, [x for x in self.points if x[k] in first]),
            Box(self.n, [x for x in self.points if x[k] not in first]),
        )

    def offer(self):
        if not self.points:
            return [-1]
        return [self.n] + [self.values(k)[0] if k < self.n else 0 for k in range(8)]

    def held(self):
        for n in range(4):
            for a, b in product(range(-3, 4), repeat=2):
                yield 1 if (a, b, 0)[:n] in self.points else 0

    def answers(self):
        yield self.n
        yield self.extent()
        yield self.halvings()
        for p, q in product(range(6), repeat=2):
            yield self.limit(p, q)
        for k in range(9):
            yield from self.range(k)
        yield from self.held()
        yield from self.offer()

    def all_answers(self):
        yield from self.answers()
        for part in self.split():
            yield from part.answers()
        yield from self.cut(0, 0, 0).answers()


def probe(home, p, q):
    digest = 0
    if opposite(p, q):
        return digest
    for c in range(-6, 7):
        for x in home.cut(p, q, c).all_answers():
            digest = mixed(digest, x)
    return digest


def report(n, ranges):
    home = Box(n, product(*[range(low, high + 1) for low, high in ranges[:n]]))
    shown = " ".join(f"{low} {high}" for low, high in ranges)
    for p, q in product(range(2 * n + 1), repeat=2):
        print(n, shown, p, q, probe(home, p, q))


def main():
    for low in range(-3, 1):
        for high in range(low, 1):
            report(1, [(low, high), (5, 4)])
    small = [(low, high) for low in range(-1, 2) for high in range(low, 2)]
    for first, second in product(small, repeat=2):
        report(2, [first, second])


main()
