#!/usr/bin/env python3
"""An independent fitter's desk: takes the same commands and prints what the program must print.

It keeps the rules and checkpoints as plain lists, checks every record through its frame, and searches with the octagon
that is closed from scratch; it shares no code with the solver.
usage: fitter.py < crates/fitter/stdin > crates/fitter/stdout
"""
import re
import sys

from reference import Fault, Octagon, check_home, check_rule, range_of, run

PLACES = {"rules": 32, "marks": 4, "stack": 169, "list": 4}
OUTCOMES = ["done", "spent", "list full", "stack full"]
GROUNDS = {
    9: "the settings are not from 1 to 8 in number",
    10: "a low or a high is beyond a million",
    11: "a low is above its high",
    12: "a setting is not on the line",
    13: "one setting is named twice, or with its own negative",
    14: "a number is out of range",
    15: "the sum has no term",
    16: "no place for a rule",
    17: "not in this phase: run and leave need a search, limit fits always, the rest needs no search",
    19: "no checkpoint is set",
    20: "no place for a checkpoint",
    22: "no limit, since no setting is left",
}


class Unreadable(Exception):
    pass


def plural(count):
    return "" if count == 1 else "s"


def number(word, low=-2**31, high=2**31 - 1):
    if not re.fullmatch(r"\+?[0-9]+" if low == 0 else r"[+-]?[0-9]+", word) or not low <= int(word) <= high:
        raise Unreadable
    return int(word)


def setting(word):
    if not word.startswith("s"):
        raise Unreadable
    return min(127, number(word[1:], 0, 255))


def node(word):
    return 2 * setting(word[1:]) + 1 if word.startswith("-") else 2 * setting(word)


def four(z):
    return z.to_bytes(4, "big", signed=True)


def home_frame(words):
    if len(words) % 2:
        raise Unreadable
    ends = [number(word) for word in words]
    return bytes([1, min(9, len(ends) // 2)]) + b"".join(four(z) for z in ends)


def sum_frame(words):
    if len(words) not in (2, 4, 6, 8) or words[-2] != "<=":
        raise Unreadable
    terms = b""
    for i in range(0, len(words) - 2, 2):
        k = max(-128, min(127, number(words[i])))
        terms += bytes([setting(words[i + 1]), k & 255])
    return bytes([3]) + terms.ljust(6, b"\0") + four(number(words[-1]))


def rule_frame(words):
    kind, rest = words[0], words[1:]
    if kind == "sum":
        return sum_frame(rest)
    if kind == "pair" and len(rest) == 4 and rest[2] == "<=":
        return bytes([2, node(rest[0]), node(rest[1])]) + four(number(rest[3]))
    if kind == "apart" and len(rest) == 4 and rest[2] == ">=":
        return bytes([5, setting(rest[0]), setting(rest[1])]) + four(number(rest[3]))
    if kind == "step" and len(rest) == 5 and rest[1] == "by" and rest[3] == "rest":
        return bytes([6, setting(rest[0])]) + four(number(rest[2])) + four(number(rest[4]))
    raise Unreadable


class Session:
    def __init__(self, ranges):
        self.shape, self.rules, self.marks = Octagon(ranges), [], []
        self.waiting, self.found = None, False

    def need(self, searching):
        if (self.waiting is not None) != searching:
            raise Fault(17, 4, 0)

    def counts(self):
        return "rules standing: %d, checkpoints: %d" % (len(self.rules), len(self.marks))

    def state(self, frame):
        self.need(False)
        rule = check_rule(frame, self.shape.n)
        if len(self.rules) == PLACES["rules"]:
            raise Fault(16, 4, 0)
        self.rules = self.rules + [rule]
        if rule[0] == "pair":
            self.shape = self.shape.cut(rule[1:])
        return ["rule %d stands" % len(self.rules)]

    def mark(self):
        self.need(False)
        if len(self.marks) == PLACES["marks"]:
            raise Fault(20, 4, 0)
        self.marks.append((self.shape, self.rules))
        return ["checkpoint %d set, rules standing: %d" % (len(self.marks), len(self.rules))]

    def last_mark(self):
        self.need(False)
        if not self.marks:
            raise Fault(19, 4, 0)
        return self.marks.pop()

    def back(self):
        self.shape, self.rules = self.last_mark()
        return ["taken back, " + self.counts()]

    def keep(self):
        self.last_mark()
        return ["kept, " + self.counts()]

    def begin(self):
        self.need(False)
        self.waiting, self.found = [self.shape], False
        return ["search begun"]

    def leave(self):
        self.need(True)
        self.waiting = None
        return ["search left"]

    def limit(self, p, q):
        check_rule(bytes([2, p, q]) + four(0), self.shape.n)
        if self.shape.void:
            raise Fault(22, 4, 0)
        return ["limit: %d" % self.shape.limit(p, q)]

    def run(self, budget):
        self.need(True)
        outcome, steps, regions = run(self.rules, self.waiting, PLACES["list"], PLACES["stack"], budget)
        self.found = self.found or bool(regions)
        lines = [region_words(s, x) for s, x in regions]
        lines.append("%s after %d step%s" % (OUTCOMES[outcome], steps, plural(steps)))
        return lines + (["no setting exists"] if outcome == 0 and not self.found else [])


def region_words(s, x):
    ranges = ["s%d from %d to %d" % ((k,) + range_of(s, k)) for k in range(s.n)]
    return "region: %s; point %s" % (", ".join(ranges), " ".join(map(str, x)))


def request(words):
    """What to do with the session."""
    kind = words[0]
    if len(words) == 1 and kind in ("mark", "back", "keep", "begin", "leave"):
        return lambda session: getattr(session, kind)()
    if kind == "run" and len(words) == 2:
        budget = number(words[1], 0, 2**32 - 1)
        return lambda session: session.run(budget)
    if kind == "limit" and len(words) == 3:
        p, q = node(words[1]), node(words[2])
        return lambda session: session.limit(p, q)
    frame = rule_frame(words)
    return lambda session: session.state(frame)


def obey(session, line):
    """(the session after the line, what is said)"""
    words = line.split()
    try:
        if not words:
            return session, []
        if words[0] == "home":
            n, ranges = check_home(home_frame(words[1:]))
            return Session(ranges), ["home: %d setting%s" % (n, plural(n))]
        wanted = request(words)
        return session, ["no home yet: give one first"] if session is None else wanted(session)
    except Unreadable:
        return session, ["cannot read, nothing done: " + line]
    except Fault as fault:
        return session, ["refused: %s (%d)" % (GROUNDS[fault.code[0]], fault.code[0])]


def main():
    session = None
    for line in sys.stdin.buffer:
        try:
            session, said = obey(session, line.decode().rstrip("\n"))
        except UnicodeDecodeError:
            said = ["cannot read, nothing done: the line is no text"]
        sys.stdout.write("".join(one + "\n" for one in said))


if __name__ == "__main__":
    main()
