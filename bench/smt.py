#!/usr/bin/env python3
"""Translates a problem text to SMT-LIB (QF_LIA) on standard output.

usage: smt.py FILE [TIMES]    the question is asked that many times (1 if not said), taken back (pop) in between

One whole number for each setting; its range, pair and sum rules are linear limits, apart is a disjunction, step a
remainder (SMT-LIB's mod rounds down for a divisor above 0, as docs/FORMAT.md does).
"""
import pathlib
import sys

sys.path.insert(0, str(pathlib.Path(__file__).resolve().parent.parent / "tests"))
from reference import check_home, check_rule  # noqa: E402


def number(z):
    return str(z) if z >= 0 else "(- %d)" % -z


def setting(k):
    return "x%d" % k


def node(p):
    return setting(p // 2) if p % 2 == 0 else "(- %s)" % setting(p // 2)


def meets(rule):
    kind = rule[0]
    if kind == "pair":
        _, p, q, c = rule
        return "(<= (+ %s %s) %s)" % (node(p), node(q), number(c))
    if kind == "sum":
        _, terms, t = rule
        parts = ["(* %s %s)" % (number(k), setting(a)) for a, k in terms if k]
        return "(<= %s %s)" % (parts[0] if len(parts) == 1 else "(+ %s)" % " ".join(parts), number(t))
    if kind == "apart":
        _, a, b, d = rule
        gap = "(- %s %s)" % (setting(a), setting(b))
        return "(or (>= %s %s) (<= %s %s))" % (gap, number(d), gap, number(-d))
    _, a, m, r = rule
    return "(= (mod %s %d) %d)" % (setting(a), m, r)


def question(text):
    home, *rules = [bytes.fromhex(line) for line in text.split()]
    n, ranges = check_home(home)
    lines = ["(push)"]
    for k, (lo, hi) in enumerate(ranges):
        lines.append("(declare-const %s Int)" % setting(k))
        lines.append("(assert (<= %s %s %s))" % (number(lo), setting(k), number(hi)))
    lines += ["(assert %s)" % meets(check_rule(rule, n)) for rule in rules]
    lines += ["(check-sat)", "(pop)"]
    return "\n".join(lines)


def main():
    text = pathlib.Path(sys.argv[1]).read_text()
    times = int(sys.argv[2]) if len(sys.argv) > 2 else 1
    print("\n".join(["(set-logic QF_LIA)"] + [question(text)] * times))


if __name__ == "__main__":
    main()
