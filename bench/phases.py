#!/usr/bin/env python3
"""Where a search spends itself: for each script how many turns it took, how many steps were offered to the
book and how many queries the integer solver was asked, and which share of the counted instructions each
phase took.

The program runs under callgrind (the Debian package `valgrind`), which counts instructions and calls, so
that two runs with one worker give the same figures, whatever else the machine does. It takes some fifty
times as long as the program alone; `--units` ends a run that would be too long.

    bench/phases.py SCRIPT .. [--units N] [--workers N]

A phase is a function with all that it calls, and phases don't overlap: hints are what is known of the
system, turns serve an obligation, lemmas are candidates in a lemma's place, made more general and raised.
The last column is the integer solver, wherever it is asked. It fails where the program has no function of a
name that is looked for, since a phase would be missing without a word."""

import argparse
import collections
import os
import re
import subprocess
import sys
import tempfile

from measure import chc_program

# The phases, each with the functions at which it begins.
PHASES = {
    "reading": ["sort_check::script::check_text"],
    "clauses": ["clause_normal::reading::read_clauses"],
    "hints": ["guess_all::hints::hints_of", "guess_all::hints::Hints::renew"],
    "turns": ["obligation_turn::turning::turn_in"],
    "lemmas": ["search_learn::learning::improved"],
    "lifts": ["search_strategy::lifts::lift_of"],
    "commits": ["chc_core::book::Book::commit"],
}
QUERY = "lia_cases::formula::decide_owned"
LINE = re.compile(r"(fn|cfn)=\((\d+)\)(?: (.*))?")


class Profile:
    """The instructions of each function: its own, and those of each function that it calls, with how often."""

    def __init__(self, lines):
        self.names, self.own = {}, collections.Counter()
        self.calls, self.spent = collections.Counter(), collections.Counter()
        caller = called = None
        count = 0
        for line in lines:
            match = LINE.match(line)
            if match:
                if match[3]:
                    self.names[match[2]] = plain(match[3])
                if match[1] == "fn":
                    caller = self.names[match[2]]
                else:
                    called = self.names[match[2]]
            elif line.startswith("calls="):
                count = int(line[6:].split()[0])
            elif line[:1] in "+-*0123456789" and caller is not None and len(line.split()) > 1:
                cost = int(line.split()[1])
                if called is None:
                    self.own[caller] += cost
                else:
                    self.calls[caller, called] += count
                    self.spent[caller, called] += cost
                    called = None

    def total(self):
        return sum(self.own.values())

    def count(self, name):
        """How often the function is called by others."""
        return sum(times for (above, below), times in self.calls.items() if below == name and above != name)

    def within(self, name):
        """What calls of the function by others take, with all that it calls."""
        return sum(cost for (above, below), cost in self.spent.items() if below == name and above != name)

    def stands(self, name):
        return any(name in pair for pair in self.calls)


def plain(name):
    """The name without what callgrind and the compiler put behind it: a cycle, a recursion, a type."""
    return re.sub(r"('\d+|::<.*)$", "", name)


def profile_of(program, script, units, workers):
    with tempfile.TemporaryDirectory() as folder, open(script, "rb") as text:
        words = ["valgrind", "--tool=callgrind", f"--callgrind-out-file={folder}/out", "--compress-strings=yes"]
        words += [program, "solve", "--workers", str(workers)] + (["--units", str(units)] if units else [])
        ran = subprocess.run(words, stdin=text, stdout=subprocess.PIPE, stderr=subprocess.DEVNULL, check=False)
        with open(f"{folder}/out", encoding="utf-8", errors="replace") as out:
            return Profile(out), ran.stdout.decode(errors="replace").split("\n", 1)[0]


def symbols_of(program):
    listed = subprocess.run(["nm", "-C", program], stdout=subprocess.PIPE, check=True).stdout.decode(errors="replace")
    return {plain(line.split(" ", 2)[2]) for line in listed.splitlines() if line.count(" ") >= 2}


def row(script, profile, answer):
    total = profile.total()
    shares = [sum(map(profile.within, names)) / total for names in PHASES.values()]
    solver = profile.within(QUERY) / total
    counts = [profile.count(PHASES["turns"][0]), profile.count(PHASES["commits"][0]), profile.count(QUERY)]
    name = os.path.basename(script).removesuffix(".smt2")
    cells = [name[:28].ljust(28), answer.ljust(7), f"{total / 1e6:9.0f}", *(f"{it:8d}" for it in counts)]
    return " ".join([*cells, *(f"{it:8.2f}" for it in shares), f"{1 - sum(shares):8.2f}", f"{solver:8.2f}"])


def main():
    parser = argparse.ArgumentParser(description=__doc__.split("\n\n", 1)[0])
    parser.add_argument("scripts", nargs="+")
    parser.add_argument("--units", type=int, default=0, help="the most steps of the book")
    parser.add_argument("--workers", type=int, default=1)
    given = parser.parse_args()
    program = os.path.abspath(chc_program())
    missing = {name for names in [*PHASES.values(), [QUERY]] for name in names} - symbols_of(program)
    if missing:
        print("the program has no function", ", ".join(sorted(missing)), file=sys.stderr)
        return 2
    heads = ["script".ljust(28), "answer".ljust(7), "  million", "   turns", "   steps", " queries"]
    print(" ".join([*heads, *(name.rjust(8) for name in [*PHASES, "rest", "(solver)"])]))
    for script in given.scripts:
        profile, answer = profile_of(program, script, given.units, given.workers)
        print(row(script, profile, answer), flush=True)
    return 0


sys.exit(main())
