#!/usr/bin/env python3
"""Random texts, sound and damaged, answered by the built program and by tests/reference.py, compared byte by byte.

usage: compare.py COUNT [SEED]     after `rt run` in crates/texts; prints how many differ
"""
import random
import subprocess
import sys

from make_texts import b, home, sum_rule, w
from reference import solve


def problem(rng):
    n = rng.choice([1, 1, 2, 2, 2, 3])
    wide = rng.choice([3, 9, 40])
    lines = [home([tuple(sorted((rng.randint(-wide, wide), rng.randint(-wide, wide)))) for _ in range(n)])]
    for _ in range(rng.randint(0, 5)):
        kind = rng.choice("pppstta") if n > 1 else rng.choice("ps")
        if kind == "p":
            p = rng.randrange(2 * n)
            q = rng.choice([q for q in range(2 * n) if q != p ^ 1])
            lines.append("02" + b(p) + b(q) + w(rng.randint(-wide, 2 * wide)))
        elif kind == "a":
            x, y = rng.sample(range(n), 2)
            lines.append("05" + b(x) + b(y) + w(rng.randint(1, wide)))
        elif kind == "s":
            m = rng.randint(2, 7)
            lines.append("06" + b(rng.randrange(n)) + w(m) + w(rng.randrange(m)))
        else:
            x, y = rng.sample(range(n), 2)
            lines.append(sum_rule([(x, rng.choice([1, 2, -3, 7])), (y, rng.choice([-1, 2, 5, -6])), (0, 0)], rng.randint(-3 * wide, 3 * wide)))
    return "".join(line + "\n" for line in lines).encode()


def damaged(rng, text):
    at = rng.randrange(len(text))
    return rng.choice([
        text[:at] + bytes([rng.choice(b"0123456789ABCDEFg\n")]) + text[at + 1:],
        text[:at] + text[at + 1:],
        text[:at] + bytes([rng.choice(b"0F\n")]) + text[at:],
        text[:at],
    ])


def main():
    count, rng = int(sys.argv[1]), random.Random(int(sys.argv[2]) if len(sys.argv) > 2 else 1)
    texts = []
    for _ in range(count):
        text = problem(rng)
        texts.append(damaged(rng, text) if rng.random() < 0.3 else text)
    answers = [solve(text) for text in texts]
    ours = subprocess.run(["crates/texts/out/texts"], input="".join(t.hex().upper() + "\n" for t in texts).encode(), capture_output=True, check=True).stdout.decode()
    at = differ = 0
    for text, answer in zip(texts, answers):
        if ours[at:at + len(answer)] != answer:
            differ += 1
            print("differs:", text)
            break
        at += len(answer)
    print("%d texts, %d differences, %d bytes left over" % (count, differ, len(ours) - at))


if __name__ == "__main__":
    main()
