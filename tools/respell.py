#!/usr/bin/env python3
"""Spells this repository's own definitions, lemmas, fields and constructors as today's Rattle does: words in snake case,
facts and types in camel case. Run once, at the top, right after port.py; prints the names it turned and those it left.

usage: tools/respell.py [--dry]
"""
import collections
import os
import re
import sys

LETTER = r"A-Za-z0-9_'\u2032+"
NAME = rf"[A-Za-z][{LETTER}-]*"
TOP = re.compile(rf"^\s*(?:(?:abbrev|unfoldable|pub|data|record) )*({NAME}) *(?:[{{(][^:]*:[^:]*)*: *(.*)")
# Rattle's library has nat_abs; getD is now get_or; ++ is not a word
OTHERWISE = {
    "nat-abs": "pos_unsigned_abs",
    "get_d_part": "get_or_part",
    "first-fault-++": "first_fault_append",
    "hex-++": "hex_append",
}
GOAL = re.compile(r"(goal|need|given)\.")


def files(kinds):
    for folder, dirs, names in os.walk("crates"):
        dirs[:] = sorted(d for d in dirs if d != "out")
        for name in sorted(names):
            if name.endswith(kinds):
                yield os.path.join(folder, name)


def own():
    """The names that the repository declares, each with the files that declare it."""
    found = collections.defaultdict(set)
    for path in files((".antt",)):
        for line in open(path, encoding="utf-8"):
            top = TOP.match(line)
            if top and not GOAL.match(top.group(2)):
                found[top.group(1)].add(path)
    return found


def borrowed():
    """The names that files take from Rattle's libraries."""
    taken = set()
    for path in files((".antt", ".rt")):
        text = open(path, encoding="utf-8").read()
        for group in re.findall(r"use (?:Rattle\.std|Rattle\.core|Prim|mathlib|lib)[^{\n;]*\.\{([^}]*)\}", text):
            taken.update(word.strip().split(" as ")[-1] for word in group.split(","))
    return taken


def spelled(name):
    if name in OTHERWISE:
        return OTHERWISE[name]
    if name[0].isupper():
        return "".join(part[:1].upper() + part[1:] for part in name.split("-"))
    return name.replace("-", "_")


def main():
    dry = "--dry" in sys.argv[1:]
    names = own()
    taken = borrowed()
    dashed = sorted(n for n in names if "-" in n or n in OTHERWISE)
    left = [n for n in dashed if n in taken]
    turned = {n: spelled(n) for n in dashed if n not in taken}
    words = set()
    for path in files((".antt", ".rt")):
        words.update(re.findall(NAME, open(path, encoding="utf-8").read()))
    token = re.compile(rf"(?<![{LETTER}-])({NAME})(?![{LETTER}-])")
    meet = collections.defaultdict(list)
    for old, new in turned.items():
        meet[new].append(old)
    for new, olds in sorted(meet.items()):
        if len(olds) > 1 or new in words:
            print("fall together:", " ".join(olds), "->", new, "(stands already)" if new in words else "")
    print("left, since a library has the name:", " ".join(left))
    print("turned:", len(turned))
    if dry:
        return
    for path in files((".antt", ".rt", ".edit")):
        text = open(path, encoding="utf-8").read()
        new = token.sub(lambda m: turned.get(m.group(1), m.group(1)), text)
        if new != text:
            with open(path, "w", encoding="utf-8") as f:
                f.write(new)


if __name__ == "__main__":
    main()
