#!/usr/bin/env python3
"""An independent program: reads a problem text and answers by the rules of docs/, sharing no code with the solver.

It closes the octagon's matrix by Floyd-Warshall from scratch after every cut, which is slow and simple.
usage: reference.py read < TEXT     the fault line, or the records and how many lines were taken
       reference.py solve < TEXT    what the entry point writes, with budget 10,000 and 30,127 bytes of output
"""
import sys

DIGITS = b"0123456789ABCDEF"
M = 1_000_000


class Fault(Exception):
    def __init__(self, number, layer, place):
        self.code = (number, layer, place)


def lines_of(text):
    """Each line's digits, or a Fault at the line where one arises."""
    at = 0
    while at < len(text):
        end = text.find(b"\n", at)
        ended = end >= 0
        line = text[at:end] if ended else text[at:]
        for i, b in enumerate(line):
            if b not in DIGITS:
                raise Fault(2, 1, i + 1)
        if len(line) > 132:
            raise Fault(3, 1, 133)
        if len(line) == 0 or len(line) % 2:
            raise Fault(4, 1, len(line) + 1)
        if not ended:
            raise Fault(5, 1, len(line) + 1)
        yield bytes.fromhex(line.decode())
        at = end + 1


def signed(b):
    return int.from_bytes(b, "big", signed=True)


def length_of(frame):
    kind = frame[0]
    if kind == 1:
        return 2 + 8 * frame[1] if len(frame) > 1 else -1
    return {2: 7, 3: 11, 5: 7, 6: 10}[kind]


def read_home(f):
    n = f[1]
    return n, [(signed(f[2 + 8 * k:6 + 8 * k]), signed(f[6 + 8 * k:10 + 8 * k])) for k in range(n)]


def check_home(f):
    n, ranges = read_home(f)
    if not 1 <= n <= 8:
        raise Fault(9, 3, 2)
    for k, (lo, hi) in enumerate(ranges):
        if abs(lo) > M:
            raise Fault(10, 3, 3 + 8 * k)
        if abs(hi) > M:
            raise Fault(10, 3, 7 + 8 * k)
    for k, (lo, hi) in enumerate(ranges):
        if lo > hi:
            raise Fault(11, 3, 7 + 8 * k)
    return n, ranges


def check_rule(f, n):
    kind = f[0]
    if kind == 2:
        p, q, c = f[1], f[2], signed(f[3:7])
        for place, node in ((2, p), (3, q)):
            if node >= 2 * n:
                raise Fault(12, 3, place)
        if q == p ^ 1:
            raise Fault(13, 3, 3)
        if abs(c) > 2 * M:
            raise Fault(14, 3, 4)
        return ("pair", p, q, c)
    if kind == 3:
        terms = [(f[1 + 2 * i], signed(f[2 + 2 * i:3 + 2 * i])) for i in range(3)]
        t = signed(f[7:11])
        for i, (s, _) in enumerate(terms):
            if s >= n:
                raise Fault(12, 3, 2 + 2 * i)
        for i in range(3):
            for j in range(i):
                if terms[i][1] and terms[j][1] and terms[i][0] == terms[j][0]:
                    raise Fault(13, 3, 2 + 2 * i)
        for i, (s, k) in enumerate(terms):
            if abs(k) > 100 or (k == 0 and s != 0):
                raise Fault(14, 3, 3 + 2 * i)
        if abs(t) > 300 * M:
            raise Fault(14, 3, 8)
        if all(k == 0 for _, k in terms):
            raise Fault(15, 3, 1)
        return ("sum", terms, t)
    if kind == 5:
        a, b, d = f[1], f[2], signed(f[3:7])
        for place, s in ((2, a), (3, b)):
            if s >= n:
                raise Fault(12, 3, place)
        if a == b:
            raise Fault(13, 3, 3)
        if not 1 <= d <= 2 * M:
            raise Fault(14, 3, 4)
        return ("apart", a, b, d)
    a, m, r = f[1], signed(f[2:6]), signed(f[6:10])
    if a >= n:
        raise Fault(12, 3, 2)
    if not 2 <= m <= M:
        raise Fault(14, 3, 3)
    if not 0 <= r < m:
        raise Fault(14, 3, 7)
    return ("step", a, m, r)


def read_problem(text):
    """(home, rules, frames), or raises a Fault whose .line is set."""
    if not 1 <= len(text) <= 8192:
        fault = Fault(1, 1, 0)
        fault.line = 0
        raise fault
    home, rules, frames, line = None, [], [], 0
    source = lines_of(text)
    while True:
        line += 1
        try:
            try:
                f = next(source)
            except StopIteration:
                return home, rules, frames
            if f[0] not in (1, 2, 3, 5, 6):
                raise Fault(6, 2, 1)
            if (f[0] == 1) != (line == 1):
                raise Fault(7, 2, 1)
            if len(f) != length_of(f):
                raise Fault(8, 2, 1)
            if home is None:
                home = check_home(f)
            else:
                rule = check_rule(f, home[0])
                if len(rules) == 32:
                    raise Fault(16, 4, 0)
                rules.append(rule)
            frames.append(f)
        except Fault as fault:
            fault.line = line
            raise


def fault_line(fault):
    number, layer, place = fault.code
    return "1E%02X%02X%04X%04X\n" % (number, layer, fault.line, place)


def opp(p):
    return p ^ 1


def value(x, p):
    return x[p // 2] if p % 2 == 0 else -x[p // 2]


class Octagon:
    """Limits by the definition: home and cuts, closed from scratch, then rounded once and joined once."""

    def __init__(self, ranges, cuts=()):
        self.ranges, self.cuts, self.n = ranges, tuple(cuts), len(ranges)
        nodes = range(2 * self.n)
        top = [ranges[p // 2][1] if p % 2 == 0 else -ranges[p // 2][0] for p in nodes]
        t = [[0 if q == opp(p) else top[p] + top[q] for q in nodes] for p in nodes]
        for p, q, c in cuts:
            if p < 2 * self.n and q < 2 * self.n:
                t[p][q] = min(t[p][q], c)
                t[q][p] = min(t[q][p], c)
        self.void = False
        changed = True
        while changed and not self.void:
            changed = False
            self.void = any(t[p][opp(p)] < 0 for p in nodes)
            if self.void:
                break
            for r in nodes:
                for p in nodes:
                    for q in nodes:
                        if t[p][r] + t[opp(r)][q] < t[p][q]:
                            t[p][q] = t[p][r] + t[opp(r)][q]
                            changed = True
        if not self.void:
            e = [2 * (t[p][p] // 2) for p in nodes]
            self.void = any(e[p] + e[opp(p)] < 0 for p in nodes)
        if self.void:
            self.limits = [[0] * 16 for _ in range(16)]
            return
        self.limits = [[0] * 16 for _ in range(16)]
        for p in nodes:
            for q in nodes:
                if q == p:
                    self.limits[p][q] = e[p]
                elif q != opp(p):
                    self.limits[p][q] = min(t[p][q], (e[p] + e[q]) // 2)

    def cut(self, c):
        return Octagon(self.ranges, self.cuts + (c,))

    def limit(self, p, q):
        return self.limits[p][q]

    def offer(self):
        if self.void:
            return None
        x = []
        for k in range(self.n):
            low = -(self.limits[2 * k + 1][2 * k + 1] // 2)
            for p in range(2 * k):
                low = max(low, value(x, p) - self.limits[p][2 * k + 1])
            x.append(low)
        return x


class IntervalBox:
    def __init__(self, ranges, void=False):
        self.n, self.void = len(ranges), void or any(lo > hi for lo, hi in ranges)
        self.ranges = [(0, 0)] * self.n if self.void else list(ranges)

    def least(self, p):
        lo, hi = self.ranges[p // 2]
        return lo if p % 2 == 0 else -hi

    def bounded(self, ranges, p, b):
        lo, hi = ranges[p // 2]
        ranges[p // 2] = (lo, min(hi, b)) if p % 2 == 0 else (max(lo, -b), hi)

    def cut(self, c):
        p, q, c = c
        if self.void or p >= 2 * self.n or q >= 2 * self.n:
            return self
        ranges = list(self.ranges)
        if p == q:
            self.bounded(ranges, p, c // 2)
        else:
            bp, bq = c - self.least(q), c - self.least(p)
            self.bounded(ranges, p, bp)
            self.bounded(ranges, q, bq)
        return IntervalBox(ranges)

    def limit(self, p, q):
        if self.void or p >= 2 * self.n or q >= 2 * self.n or q == opp(p):
            return 0
        return -self.least(opp(p)) - self.least(opp(q))

    def offer(self):
        return None if self.void else [lo for lo, _ in self.ranges]


def range_of(s, k):
    return -(s.limit(2 * k + 1, 2 * k + 1) // 2), s.limit(2 * k, 2 * k) // 2


def extent(s):
    if s.void:
        return "void"
    return "lone" if all(lo == hi for lo, hi in (range_of(s, k) for k in range(s.n))) else "open"


def bits(count):
    return (count - 1).bit_length()


def halvings(s):
    if s.void:
        return 0
    return sum(bits(hi - lo + 1) for lo, hi in (range_of(s, k) for k in range(s.n)))


def split(s):
    if extent(s) != "open":
        return s, s
    widths = [hi - lo for lo, hi in (range_of(s, k) for k in range(s.n))]
    k = widths.index(max(widths))
    lo, hi = range_of(s, k)
    m = (lo + hi) // 2
    return s.cut((2 * k, 2 * k, 2 * m)), s.cut((2 * k + 1, 2 * k + 1, -2 * (m + 1)))


def limits_of(s):
    return [s.limit(p, q) for p in range(16) for q in range(16)]


def bounds(s, k, a):
    """Least and greatest of k times setting a."""
    lo, hi = range_of(s, a)
    return (k * lo, k * hi) if k >= 0 else (k * hi, k * lo)


def leaves(z, m, r):
    return z % m == r


def judge(rule, s):
    kind = rule[0]
    if kind == "pair":
        _, p, q, c = rule
        return "none" if -s.limit(opp(p), opp(q)) > c else "all" if s.limit(p, q) <= c else "unknown"
    if kind == "sum":
        _, terms, t = rule
        parts = [bounds(s, k, a) for a, k in terms]
        return "none" if sum(lo for lo, _ in parts) > t else "all" if sum(hi for _, hi in parts) <= t else "unknown"
    if kind == "apart":
        _, a, b, d = rule
        lo, hi = -s.limit(2 * a + 1, 2 * b), s.limit(2 * a, 2 * b + 1)
        return "none" if hi < d and lo > -d else "all" if lo >= d or hi <= -d else "unknown"
    _, a, m, r = rule
    lo, hi = range_of(s, a)
    greatest = hi - (hi - r) % m
    return "none" if greatest < lo else "all" if lo == hi else "unknown"


def bounded_cut(p, b):
    c = 2 * b
    return None if c > 2 * M else (p, p, max(c, -2 * M))


def proposed(rule, s, i):
    kind = rule[0]
    if kind == "pair":
        return rule[1:] if i == 0 else None
    if kind == "sum":
        _, terms, t = rule
        a, k = terms[i]
        if k == 0:
            return None
        rest = t - sum(bounds(s, kk, aa)[0] for j, (aa, kk) in enumerate(terms) if j != i)
        return bounded_cut(2 * a if k > 0 else 2 * a + 1, rest // abs(k))
    if kind == "apart":
        _, a, b, d = rule
        lo, hi = -s.limit(2 * a + 1, 2 * b), s.limit(2 * a, 2 * b + 1)
        if i:
            return None
        return (2 * a, 2 * b + 1, -d) if hi < d else (2 * a + 1, 2 * b, -d) if lo > -d else None
    _, a, m, r = rule
    lo, hi = range_of(s, a)
    if i == 0:
        return bounded_cut(2 * a, hi - (hi - r) % m)
    if i == 1:
        return bounded_cut(2 * a + 1, -(lo + (r - lo) % m))
    return None


def refine(rules, s):
    for _ in range(8):
        before = limits_of(s)
        for rule in rules:
            for i in range(3):
                if extent(s) != "open":
                    return s
                c = proposed(rule, s, i)
                if c is not None:
                    s = s.cut(c)
        if limits_of(s) == before:
            break
    return s


def classify(rules, s):
    if s.void:
        return "drop"
    verdicts = [judge(rule, s) for rule in rules]
    if "none" in verdicts:
        return "drop"
    if all(v == "all" for v in verdicts) and s.offer() is not None:
        return "hand"
    return "split"


def run(rules, stack, room, places, budget):
    """(outcome, steps, regions); alters stack. room: places in the out list, places: those of the stack."""
    steps, out = 0, []
    while True:
        if not stack:
            return 0, steps, out
        if steps == budget:
            return 1, steps, out
        s = refine(rules, stack[-1])
        what = classify(rules, s)
        if what == "hand":
            if len(out) == room:
                return 2, steps, out
            out.append((s, s.offer()))
            stack.pop()
        elif what == "split":
            if len(stack) == places:
                return 3, steps, out
            low, up = split(s)
            stack[-1] = up
            stack.append(low)
        else:
            stack.pop()
        steps += 1


def region_lines(s, x):
    n = s.n
    lines = ["10%02X" % n + "".join("%08X" % (v & 0xFFFFFFFF) for v in x)]
    ranges = [range_of(s, k) for k in range(n)]
    lines.append("01%02X" % n + "".join("%08X%08X" % (lo & 0xFFFFFFFF, hi & 0xFFFFFFFF) for lo, hi in ranges))
    for p in range(2 * n):
        for q in range(p + 1, 2 * n):
            if q != opp(p) and s.limit(p, q) < (s.limit(p, p) + s.limit(q, q)) // 2:
                lines.append("02%02X%02X%08X" % (p, q, s.limit(p, q) & 0xFFFFFFFF))
    return lines


def solve(text, budget=10_000, size=30_127):
    if size < 1_897:
        return ""
    try:
        home, rules, _ = read_problem(text)
    except Fault as fault:
        return fault_line(fault)
    s = Octagon(home[1])
    for rule in rules:
        if rule[0] == "pair":
            s = s.cut(rule[1:])
    outcome, steps, regions = run(rules, [s], min(16, (size - 15) // 1_882), 169, budget)
    lines = [line for shape, x in regions for line in region_lines(shape, x)]
    lines.append("1F%02X%02X%08X" % (outcome, 1 if regions else 0, steps))
    return "".join(line + "\n" for line in lines)


def listing(text):
    try:
        home, rules, frames = read_problem(text)
    except Fault as fault:
        return fault_line(fault)
    return "".join(f.hex().upper() + "\n" for f in frames) + "taken %04X\n" % len(frames)


def main():
    text = sys.stdin.buffer.read()
    sys.stdout.write(solve(text) if sys.argv[1:] == ["solve"] else listing(text))


if __name__ == "__main__":
    main()
