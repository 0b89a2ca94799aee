#!/usr/bin/env python3
"""Texts that reach every ground at every place it can name, and accepted ones at the borders.

usage: make_texts.py stdin    the texts, one a line, each byte of a text as two hexadecimal digits
       make_texts.py stdout   what tests/reference.py answers to each
"""
import random
import sys

from reference import listing, solve

HOME2 = "0102" + "%08X%08X" % (0, 10) + "%08X%08X" % (0xFFFFFFF6, 10)
PAIR, SUM, APART, STEP = "020002%08X" % 7, "03000301FE0000%08X" % 4, "050001%08X" % 5, "0600%08X%08X" % (4, 3)


def w(z):
    return "%08X" % (z & 0xFFFFFFFF)


def b(z):
    return "%02X" % (z & 0xFF)


def home(ranges):
    return "01" + b(len(ranges)) + "".join(w(lo) + w(hi) for lo, hi in ranges)


def sum_rule(terms, t):
    return "03" + "".join(b(a) + b(k) for a, k in terms) + w(t)


def cases():
    def text(*lines):
        return "".join(line + "\n" for line in lines).encode()

    # the whole text
    yield b""
    yield b"0" * 8192
    yield b"0" * 8193
    yield b"\n"
    # bytes, digits, line ends
    for line in (HOME2, PAIR):
        first = "" if line == HOME2 else HOME2 + "\n"
        for at in (0, 1, len(line) // 2, len(line) - 1, len(line)):
            for bad in "gG:/@\r a":
                yield (first + line[:at] + bad + line[at:] + "\n").encode()
        yield (first + line).encode()
        yield (first + line[:-1]).encode()
        yield (first + line[:-1] + "\n").encode()
        yield (first + "\n" + line + "\n").encode()
    for count in (131, 132, 133, 134, 200):
        yield (HOME2 + "\n" + "0" * count + "\n").encode()
        yield (HOME2 + "\n" + "0" * count).encode()
        yield (HOME2 + "\n" + "0" * count + "g\n").encode()
    # kind, order, length
    for kind in range(0, 256, 1 if len(sys.argv) > 2 else 17):
        yield text(b(kind))
        yield text(HOME2, b(kind))
        yield text(b(kind) + HOME2[2:])
    for line in (PAIR, SUM, APART, STEP, "00", "04", "07", "FF"):
        yield text(line)
        yield text(HOME2, line, HOME2)
        yield text(HOME2, line[:-2])
        yield text(HOME2, line + "00")
    yield text(HOME2, HOME2)
    yield text("01")
    yield text("0100")
    for n in (0, 1, 3, 8, 9, 255):
        yield text("01" + b(n) + HOME2[4:])
    # homes
    eight = [(k, k + 1) for k in range(8)]
    yield text(home(eight))
    for k in range(8):
        for lo, hi in ((-1_000_001, 0), (0, 1_000_001), (1_000_001, 0), (5, 4), (-1_000_000, 1_000_000), (-2**31, 2**31 - 1)):
            yield text(home(eight[:k] + [(lo, hi)] + eight[k + 1:]))
    yield text(home([(5, 4), (1_000_001, 2)]))
    # rules on two settings
    for p in (0, 1, 2, 3, 4, 255):
        for q in (0, 1, 2, 3, 4, 255):
            yield text(HOME2, "02" + b(p) + b(q) + w(1))
            yield text(HOME2, "02" + b(p) + b(q) + w(2_000_001))
    for c in (2_000_000, 2_000_001, -2_000_000, -2_000_001, 2**31 - 1, -2**31):
        yield text(HOME2, "020002" + w(c))
    for a in (0, 1, 2, 255):
        for other in (0, 1, 2):
            for d in (0, 1, -1, 2_000_000, 2_000_001):
                yield text(HOME2, "05" + b(a) + b(other) + w(d))
        for m, r in ((2, 0), (2, 1), (2, 2), (1, 0), (0, 0), (-5, 0), (1_000_000, 999_999), (1_000_001, 0), (7, -1), (7, 7)):
            yield text(HOME2, "06" + b(a) + w(m) + w(r))
    for i in range(3):
        for a, k in ((0, 100), (0, 101), (0, -100), (0, -101), (1, 0), (0, 0), (2, 1), (2, 0), (1, -128), (0, 127)):
            terms = [(0, 0)] * 3
            terms[i] = (a, k)
            yield text(HOME2, sum_rule(terms, 4))
            terms[(i + 1) % 3] = (a, 5)
            yield text(HOME2, sum_rule(terms, 4))
    for t in (300_000_000, 300_000_001, -300_000_000, -300_000_001):
        yield text(HOME2, sum_rule([(0, 1), (0, 0), (0, 0)], t))
        yield text(HOME2, sum_rule([(0, 0), (0, 0), (0, 0)], t))
    # many rules, and a fault after them
    yield text(HOME2, *[PAIR] * 32)
    yield text(HOME2, *[PAIR] * 33)
    yield text(HOME2, *[PAIR] * 33, "zz")
    yield text(HOME2, *[PAIR] * 32, PAIR[:-2] + "0G")
    # the first fault is that of the first line that has one
    yield text(HOME2, "02000200000064", "06020000000200000001", "zz")
    yield text("02000200000064", "zz")
    # accepted texts
    rng = random.Random(8)
    for _ in range(12):
        n = rng.randint(1, 3)
        lines = [home([tuple(sorted((rng.randint(-9, 9), rng.randint(-9, 9)))) for _ in range(n)])]
        for _ in range(rng.randint(0, 4)):
            kind = rng.choice("pase" if n > 1 else "ps")
            if kind == "p":
                p = rng.randrange(2 * n)
                q = rng.choice([q for q in range(2 * n) if q != p ^ 1])
                lines.append("02" + b(p) + b(q) + w(rng.randint(-9, 15)))
            elif kind == "a":
                x, y = rng.sample(range(n), 2)
                lines.append("05" + b(x) + b(y) + w(rng.randint(1, 6)))
            elif kind == "s":
                m = rng.randint(2, 5)
                lines.append("06" + b(rng.randrange(n)) + w(m) + w(rng.randrange(m)))
            else:
                x, y = rng.sample(range(n), 2)
                lines.append(sum_rule([(x, rng.choice([1, 2, -3])), (y, rng.choice([-1, 2, 5])), (0, 0)], rng.randint(-9, 9)))
        yield text(*lines)


def main():
    answer = solve if sys.argv[2:] == ["solve"] else listing
    for case in cases():
        if sys.argv[1] == "stdin":
            print(case.hex().upper())
        else:
            sys.stdout.write(answer(case))


if __name__ == "__main__":
    main()
