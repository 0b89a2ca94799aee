#!/usr/bin/env python3
"""Measures the problems of the bench and prints the table. bench/run.sh builds what it needs and calls it.

usage: table.py WORK    the folder with the harness linked with each side: ours, plain, plain_gcc
"""
import math
import os
import pathlib
import re
import subprocess
import sys

HERE = pathlib.Path(__file__).resolve().parent
WORK = pathlib.Path(sys.argv[1])
OUTCOMES = ["done", "spent", "list full", "stack full"]
STACK_FULL = 3
COUNTED = 3  # further questions in one process of z3 whose instructions are counted


def said(*command):
    return subprocess.run(command, capture_output=True, check=True, text=True).stdout


def instructions(*command, within=None):
    """Instructions of a command by callgrind; with `within`, of that function and what it calls."""
    options = ["--tool=callgrind", "--callgrind-out-file=" + str(WORK / "callgrind")]
    if within:
        options.append("--toggle-collect=" + within)
    run = subprocess.run(["valgrind", *options, *command], capture_output=True, check=True, text=True)
    return int(re.search(r"Collected : (\d+)", run.stderr).group(1))


def least_nanoseconds(*command):
    """Processor time of a command, the least of five runs: other work on the machine alters it less than the clock's."""
    def once():
        child = subprocess.Popen(command, stdout=subprocess.DEVNULL)
        used = os.wait4(child.pid, 0)[2]
        return 1e9 * (used.ru_utime + used.ru_stime)
    return min(once() for _ in range(5))


def call(side, problem):
    """Instructions and nanoseconds of one call of offsets_solve."""
    harness = str(WORK / side)
    return instructions(harness, "once", str(problem), within="offsets_solve"), int(said(harness, "time", str(problem)))


def asked(problem, times):
    name = WORK / "question.smt2"
    name.write_text(said(sys.executable, str(HERE / "smt.py"), str(problem), str(times)))
    return str(name)


def question(problem):
    """What z3 answers; instructions and nanoseconds of a further question in a running z3, and of a process that asks one."""
    one = asked(problem, 1)
    answer = said("z3", one).strip()
    started, begun = instructions("z3", one), least_nanoseconds("z3", one)
    count = (instructions("z3", asked(problem, 1 + COUNTED)) - started) / COUNTED
    more = min(200, max(5, round(3e8 / count)))  # enough of them to stand out from the start
    each = (least_nanoseconds("z3", asked(problem, 1 + more)) - begun) / more
    return answer, count, each, started, begun


def answer_of(problem):
    """Outcome, steps and regions, as both sides answer them; they must answer alike."""
    answers = {said(str(WORK / side), "once", str(problem)) for side in ("ours", "plain", "plain_gcc")}
    if len(answers) != 1:
        sys.exit("the plain version answers %s otherwise" % problem.stem)
    lines = answers.pop().split()
    return int(lines[-1][2:4], 16), int(lines[-1][6:14], 16), sum(line.startswith("10") for line in lines)


def shapes(problems):
    """Outcome, steps and regions by name and shape, empty without the program calls."""
    figures = {}
    for line in said(sys.executable, str(HERE / "shapes.py"), *map(str, problems)).splitlines():
        name, shape, *numbers = line.split()
        figures[name, shape] = tuple(map(int, numbers))
    return figures


def compare(name, found, z3, octagon):
    """z3 must find a setting exactly where ours did, wherever our search ended or handed out a region; and the calls at
    the octagon must end as the entry point does, unless they were lent a shorter stack."""
    outcome, _, regions = found
    if (outcome == 0 or regions) and z3 != ("sat" if regions else "unsat"):
        sys.exit("%s: z3 says %s, ours handed out %d regions" % (name, z3, regions))
    if octagon != found and octagon[0] != STACK_FULL:
        sys.exit("%s: the calls at the octagon end otherwise than the entry point" % name)


def ending(figures):
    if not figures:
        return "%8s" % "-"
    outcome, steps, regions = figures
    return "%5d %2d %-10s" % (steps, regions, OUTCOMES[outcome])


HEAD = """
                       instructions            nanoseconds              z3, a further question                    steps, regions, end
problem             ours   plain C ratio       ours  plain C ratio      instructions    ratio nanosec.    ratio   octagon             box"""


def measure(problem, both, ratios):
    """One line of the table."""
    name, found = problem.stem, answer_of(problem)
    (ours, our_time), (plain, plain_time) = call("ours", problem), call("plain", problem)
    gcc = instructions(str(WORK / "plain_gcc"), "once", str(problem), within="offsets_solve")
    z3, asks, asks_time, process, process_time = question(problem)
    box = both.get((name, "box"))
    compare(name, found, z3, both.get((name, "octagon"), found))
    row = {"plain": ours / plain, "plain time": our_time / plain_time, "gcc": ours / gcc, "z3": asks / ours,
           "z3 time": asks_time / our_time, "process": process / ours, "process time": process_time / our_time}
    for kind, ratio in row.items():
        ratios.setdefault(kind, []).append(ratio)
    print("%-14s %9d %9d %5.2f   %8d %8d %5.2f   %5s %10.0f %8.3g %8.0f %8.3g  %s %s" % (
        name, ours, plain, row["plain"], our_time, plain_time, row["plain time"], z3, asks, row["z3"], asks_time,
        row["z3 time"], ending(found), ending(box)), flush=True)


def tell_means(ratios):
    means = {kind: math.exp(sum(map(math.log, kept)) / len(kept)) for kind, kept in ratios.items()}
    print("\ngeometric means of the ratios")
    print("ours to plain C: instructions %(plain).2f, time %(plain time).2f; instructions to plain C by gcc -O2 %(gcc).2f" % means)
    print("z3 to ours: instructions %(z3).1f, time %(z3 time).1f a further question; %(process).0f and %(process time).0f a process that asks one" % means)
    print("z3 says whether a setting exists; ours hands out up to 16 regions of settings, and at done they hold every setting")


def main():
    problems = sorted((HERE / "problems").glob("*.hex"))
    both, ratios = shapes(problems), {}
    print(HEAD)
    for problem in problems:
        measure(problem, both, ratios)
    tell_means(ratios)
    if not both:
        print("the box was not run: there is no program crates/calls")


if __name__ == "__main__":
    main()
