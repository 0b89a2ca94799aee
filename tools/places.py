#!/usr/bin/env python3
"""Lists the places in crates/*/src that docs/DESIGN-PASS.md counts, point by point.

    python3 tools/places.py [POINT ..]      the counts, and with a point its places
    python3 tools/places.py --at COMMIT     the same for a commit

A pattern finds candidates; which of them are places is said in the page.
"""

import re
import subprocess
import sys

PATTERNS = {
    # numbers for kinds or refusals, a flag with a value beside it, a result that says nothing
    "1": r"fn (number|code)\(&self\)|void: bool|code (==|!=) [0-9]|^ +[0-9_]+ => \w+Rule|fn [a-z_]+\(\) -> u8",
    # loops over a range of numbers, and loops with a count of their own
    "3": r"^\s*('[a-z]+: )?(for [a-z_0-9]+ in .*\.\.|loop \{|while )",
    # comparisons, conversions and the like that the library or a derive has
    "4": r"(<=|>=) -?[a-z0-9_]+ && [a-z]+ (<=|>=)"
    r"|fn (number|code|same[a-z_]*|is_equal|stating|void|open|digit_value|is_digit|[iu][0-9]+_(of|bytes|at)|pair_(value|at)"
    r"|narrowed|next_number|place_behind|at_most_eight|settings|front|settled|refused|plain|wider_of|item|checkpoint_at"
    r"|found_byte|negated|lesser|clip|kept|at|put|coordinate|low_or_0|high_or_0|negative|gap|in_range)\b",
    # parameters that travel together: an output and its place, the lent slices, a matrix and its cut
    "5": r"out(put)?: &mut \[u8\]|checkpoints: &mut \[Checkpoint|limits: &(mut )?\[i32; 256\]",
    # a count beside an array, and arrays side by side
    "6": r"^\s+(pub(\(crate\))? )?(n|count|marks|waiting|rules): (u8|usize),$|^\s+(pub )?(lows|highs): \[i32; 8\],$|(lows|highs)\[",
    # a number that says which step, and values that are called
    "7": r"dyn |: fn\(|match i \{|if i [!=]= [0-9]",
}
SIGNATURE = re.compile(r"^ *(?:pub(?:\([a-z]+\))? )?(?:extern \"C\" )?fn ([a-z_0-9]+)")


def sources(commit):
    """The source files of the crates, each as (path, lines)."""
    if commit is None:
        listed = subprocess.run(["git", "ls-files", "crates/*/src/*.rt"], check=True, capture_output=True, text=True).stdout
        return [(path, open(path, encoding="utf-8").read().splitlines()) for path in listed.split()]
    listed = subprocess.run(["git", "ls-tree", "-r", "--name-only", commit, "crates"], check=True, capture_output=True, text=True).stdout
    paths = [path for path in listed.split() if re.fullmatch(r"crates/[^/]+/src/.*\.rt", path)]
    return [(path, subprocess.run(["git", "show", f"{commit}:{path}"], check=True, capture_output=True, text=True).stdout.splitlines()) for path in paths]


def places(files):
    """For each point its candidates, as (path, number of the line, line)."""
    found = {point: [] for point in "1234567"}
    names = {}
    for path, lines in files:
        in_trait = False
        for number, line in enumerate(lines, 1):
            if re.match(r"(impl.* for |pub trait )", line):
                in_trait = True
            elif re.match(r"(impl|[})])", line):
                in_trait = line.startswith("impl") and " for " in line
            code = re.sub(r"//.*", "", line)
            for point, pattern in PATTERNS.items():
                if re.search(pattern, code):
                    found[point].append((path, number, line.strip()))
            signature = SIGNATURE.match(code)
            if signature and not in_trait and signature.group(1) != "main":
                names.setdefault(signature.group(1), []).append((path, number, line.strip()))
    # twins: functions of one name, outside traits and what implements them
    found["2"] = [place for name in sorted(names) if len(names[name]) > 1 for place in names[name]]
    return found


def main(arguments):
    commit = None
    if "--at" in arguments:
        at = arguments.index("--at")
        commit = arguments[at + 1]
        del arguments[at : at + 2]
    found = places(sources(commit))
    for point in "1234567":
        print(f"point {point}: {len(found[point])}")
        if point in arguments:
            for path, number, line in found[point]:
                print(f"  {path}:{number}: {line}")


if __name__ == "__main__":
    main(sys.argv[1:])
