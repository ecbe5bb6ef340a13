#!/usr/bin/env python3
"""Runs `chc solve` with several numbers of workers on every script of a folder.

Prints a row for each script: the answer, and for each number of workers the seconds by the clock and of
processor time. Each answer is handed to `chc check` with its script. Then come how many scripts each
number solves within the limit, the time by the clock over the scripts that take one worker more than 0.3 s
(`--long`), and the scripts that one worker solves in a second and more workers take more than twice as long
for. The limit is of seconds by the clock. `--times N` runs the scripts that take one worker the least, ten
of them (`--shortest`), N more times with each number, since a run of several workers is never the same
twice.

Fails where two answers to one script differ in more than that one is `unknown` or out of time, or where an
answer isn't `valid`."""

import argparse
import os
import subprocess
import sys
import time

from measure import chc_program, launched

MARKER = b";;answer\n"


def ran(program, words, data, seconds):
    """The output, seconds by the clock, and seconds of processor time; no output where it is out of time."""
    begin, before = time.monotonic(), os.times()
    try:
        output = subprocess.run([*launched(program), *words], input=data, stdout=subprocess.PIPE, timeout=seconds, check=False).stdout
    except subprocess.TimeoutExpired:
        output = b""
    after = os.times()
    spent = after.children_user + after.children_system - before.children_user - before.children_system
    return output, time.monotonic() - begin, spent


def answer_of(output):
    """Its first word: sat, unsat or unknown; `time` where there is none."""
    return output.split(b"\n", 1)[0].decode("utf-8", "replace").split(" ")[0] or "time"


def is_valid(program, script, output):
    """Whether `check` says so of the answer."""
    gap = b"" if script.endswith(b"\n") else b"\n"
    told, _, _ = ran(program, ["check"], script + gap + MARKER + output, 60)
    return told == b"valid\n"


def main():
    parser = argparse.ArgumentParser(description=__doc__, formatter_class=argparse.RawDescriptionHelpFormatter)
    parser.add_argument("folder")
    parser.add_argument("--workers", type=int, nargs="+", default=[1, 2, 4, 8])
    parser.add_argument("--seconds", type=float, default=2.0)
    parser.add_argument("--long", type=float, default=0.3)
    parser.add_argument("--times", type=int, default=0)
    parser.add_argument("--shortest", type=int, default=10)
    words = parser.parse_args()
    program = chc_program()
    scripts = sorted(it for it in os.listdir(words.folder) if it.endswith(".smt2"))
    clock, answers, wrong, valid = {}, {}, [], 0

    def one(name, count):
        nonlocal valid
        with open(os.path.join(words.folder, name), "rb") as it:
            script = it.read()
        output, by_clock, spent = ran(program, ["solve", "--workers", str(count)], script, words.seconds)
        answer = answer_of(output)
        if answer in ("sat", "unsat"):
            if answers.setdefault(name, answer) != answer:
                wrong.append(f"{name}: {answer} with {count} workers, {answers[name]} before")
            if is_valid(program, script, output):
                valid += 1
            else:
                wrong.append(f"{name}: the answer with {count} workers isn't valid")
        return answer, by_clock, spent

    for name in scripts:
        row = []
        for count in words.workers:
            answer, by_clock, spent = one(name, count)
            clock[name, count] = (answer, by_clock)
            row.append(f"{answer:>7} {by_clock:6.2f} {spent:6.2f}")
        print(f"{name:34}", " ".join(row), flush=True)
    first = words.workers[0]
    solved = {count: [it for it in scripts if clock[it, count][0] in ("sat", "unsat")] for count in words.workers}
    dear = [it for it in solved[first] if clock[it, first][1] > words.long]
    for count in words.workers:
        time_of = sum(clock[it, count][1] for it in dear)
        slow = [it for it in solved[first] if clock[it, first][1] <= 1 and clock[it, count][1] > max(2 * clock[it, first][1], 0.05)]
        print(f"{count} workers: {len(solved[count])} of {len(scripts)} solved; {time_of:.1f} s by the clock on the {len(dear)} long ones; more than twice as long: {' '.join(slow) or 'none'}")
    short = sorted(solved[first], key=lambda it: clock[it, first][1])[: words.shortest]
    for name in short if words.times else []:
        for count in words.workers:
            for _ in range(words.times):
                if one(name, count)[0] not in ("sat", "unsat"):
                    print(f"{name}: not solved once with {count} workers")
    print(f"{valid} answers are valid")
    for it in wrong:
        print(it)
    return 1 if wrong else 0


if __name__ == "__main__":
    sys.exit(main())
