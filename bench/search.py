#!/usr/bin/env python3
"""Measures `chc solve` on every script of a folder, beside z3 with its spacer where that is installed.

Prints a row for each script: the answer that the script tells of itself (`(set-info :status ..)` or a
comment `; expect: ..`); chc's answer, the seconds until its book is open, those of the whole run, the
level and the units; how many steps or definitions the answer has and how many bytes; and z3's answer and
seconds. Seconds are of processor time, and each run has a limit of them. Then come what each solves, and
the ratio of the times over what both solve.

The level is the closed one of an unknown answer. With `--units` it and the units are found for the other
answers too: a run is the same up to where its units are spent, so the least number that suffices is found
by doubling and halving, in some twenty shorter runs. The level is that of one unit less.

Fails where an answer differs from the one that the script tells."""

import argparse
import math
import os
import shutil
import sys

from measure import LEVEL, answer_of, chc_program, launched, parts_of, run, told_by

SHORTEST = 0.01
HEAD = ("script", "told", "chc", "open", "seconds", "level", "units", "answer", "z3", "seconds")
ROW = "{:32} {:>6} {:>9} {:>6} {:>8} {:>6} {:>8} {:>22} {:>9} {:>8}"


def size_of(output):
    """How many steps or definitions there are, and how many bytes."""
    number, what = parts_of(output)
    return f"{number} {what}, {len(output)} B"


def spent(program, path, units, seconds):
    """The level line of a run with this limit on its units, or None where it has another answer."""
    ran = run([*launched(program), "solve", "--units", str(units)], path, seconds)
    return LEVEL.search(ran.output) if answer_of(ran) == "unknown" else None


def least_units(program, path, seconds):
    """The level before the last unit, and the least units with which the script is answered."""
    low, high = 0, 1
    while high < 1_000_000 and spent(program, path, high, seconds):
        low, high = high, 2 * high
    while high - low > 1:
        middle = (low + high) // 2
        if spent(program, path, middle, seconds):
            low = middle
        else:
            high = middle
    before = spent(program, path, low, seconds)
    return (int(before[1]), high) if before else (0, 0)


def row_of(words, path, theirs):
    """Runs both on one script, prints its row, and returns what it tells and what each answered."""
    with open(path, "rb") as script:
        told = told_by(script.read()) or "-"
    opened = run([*launched(words.program), "solve", "--units", "0"], path, words.seconds)
    ours = run([*launched(words.program), "solve"], path, words.seconds)
    answer, level, units, size = answer_of(ours), "-", "-", "-"
    if answer == "unknown":
        line = LEVEL.search(ours.output)
        level, units = line[1].decode(), (line[2] or line[3]).decode()
    elif answer in ("sat", "unsat"):
        size = size_of(ours.output)
        if words.units:
            level, units = least_units(words.program, path, words.seconds)
    other, seconds = "-", None
    if theirs:
        ran = run([theirs, "fp.engine=spacer", "-in"], path, words.seconds)
        other, seconds = answer_of(ran), ran.seconds
    shown = "-" if seconds is None else f"{seconds:.2f}"
    name = os.path.basename(path).removesuffix(".smt2")
    print(ROW.format(name, told, answer, f"{opened.seconds:.2f}", f"{ours.seconds:.2f}", level, units, size, other, shown), flush=True)
    return told, answer, ours.seconds, other, seconds


def summary(rows, has_theirs):
    """Prints what each solves and the ratio of the times, and returns how many answers are wrong."""
    is_solved = lambda answer: answer in ("sat", "unsat")
    wrong = sum(is_solved(ours) and told != "-" and ours != told for told, ours, *_ in rows)
    wrong += sum(is_solved(ours) and is_solved(other) and ours != other for told, ours, _, other, _ in rows if told == "-")
    solved = [row for row in rows if is_solved(row[1])]
    sat = sum(row[1] == "sat" for row in solved)
    print(f"chc solves {len(solved)} of {len(rows)}, {sat} sat and {len(solved) - sat} unsat; {wrong} wrong")
    if has_theirs:
        both = [row for row in solved if is_solved(row[3])]
        others = sum(is_solved(row[3]) for row in rows)
        print(f"z3 solves {others}; both {len(both)}, chc alone {len(solved) - len(both)}, z3 alone {others - len(both)}")
        logs = [math.log(max(ours, SHORTEST) / max(theirs, SHORTEST)) for _, _, ours, _, theirs in both]
        if logs:
            print(f"on those of both chc takes {math.exp(sum(logs) / len(logs)):.2f} times the time of z3 (geometric mean)")
    return wrong


def main():
    words = argparse.ArgumentParser(description=__doc__, formatter_class=argparse.RawDescriptionHelpFormatter)
    words.add_argument("folder", help="of scripts, files that end in .smt2")
    words.add_argument("--seconds", type=int, default=2, help="of processor time for each run")
    words.add_argument("--only", default="", help="scripts whose names have this")
    words.add_argument("--units", action="store_true", help="find level and units of each answer")
    words = words.parse_args()
    words.program = chc_program()
    theirs = shutil.which("z3")
    names = sorted(it for it in os.listdir(words.folder) if it.endswith(".smt2") and words.only in it)
    print(ROW.format(*HEAD))
    rows = [row_of(words, os.path.join(words.folder, it), theirs) for it in names]
    if summary(rows, theirs is not None):
        sys.exit("an answer is wrong")


if __name__ == "__main__":
    main()
