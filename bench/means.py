#!/usr/bin/env python3
"""What each means of the search is worth: how many scripts are solved with it left out.

`copies` writes copies of the repository into a folder, one for each means, in which worker 1 has that
means alone the other way round than `crates/search_strategy/src/strategy.rt` says: `./chc` of a copy proves
and builds its program. A means that every worker has is a constant there, and named as it is, in small
letters: the copy has its other value, for all workers. One by which workers differ is a field of
`Strategy`: the copy tells it by another test of a worker's number, both in `strategy_of` and in the
definition that its contract names.

`table` runs built programs on every script of a folder, one worker each, and prints a row for each script
with their answers and seconds of processor time, and at last how many scripts each solves, which of them
the first program doesn't solve, and which ones it does and this one doesn't. It fails where two answers
differ."""

import argparse
import os
import re
import shutil
import sys

from measure import TOP, answer_of, launched, run

STRATEGY = os.path.join("crates", "search_strategy", "src", "strategy.rt")
DEFINITION = os.path.join("crates", "search_strategy", "specs", "machinery", "Passes.antt")
CONSTANT = re.compile(r"^pub const (\w+): bool = (true|false);$", re.MULTILINE)
FIELD = re.compile(r"^    pub (\w+): bool,$", re.MULTILINE)
# tests of a worker's number that tell the field of worker 1 the other way round
TURNED = {"cores_first": "worker % 2 == 1", "reversed": "worker % 2 == 0"}
SOLVED = ("sat", "unsat")


def read_of(path):
    with open(os.path.join(TOP, path), encoding="utf-8") as file:
        return file.read()


def replaced(path, pattern, text):
    """A file of the repository with the one place that the pattern finds, written as this text."""
    turned, count = re.subn(pattern, text, read_of(path), flags=re.MULTILINE)
    if count != 1:
        sys.exit(f"{path} has {count} places for {pattern}")
    return turned


def constant_edits(name, value):
    """The constant with the other value."""
    other = "false" if value == "true" else "true"
    return {STRATEGY: replaced(STRATEGY, rf"^pub const {name}: bool = {value};$", f"pub const {name}: bool = {other};")}


def field_edits(name):
    """The field by another test, where it is told and where it is defined."""
    if name not in TURNED:
        sys.exit(f"nothing turns {name} of {STRATEGY}")
    return {
        STRATEGY: replaced(STRATEGY, rf"^        {name}: .+,$", f"        {name}: {TURNED[name]},"),
        DEFINITION: replaced(DEFINITION, rf"(?<=[{{;] ){name} = [^;}}]+(?=;| }})", f"{name} = {TURNED[name]}"),
    }


def known_edits():
    """The texts of the files that turn each means round, by its name."""
    text = read_of(STRATEGY)
    constants = {name.lower(): constant_edits(name, value) for name, value in CONSTANT.findall(text)}
    fields = {name: field_edits(name) for name in FIELD.findall(text)}
    return constants | fields


def write_copy(folder, name, edits):
    """A copy of the repository without what was built, in which this means is the other way round."""
    place = os.path.join(folder, name)
    shutil.copytree(TOP, place, ignore=shutil.ignore_patterns("out", ".git", "__pycache__"))
    for path, text in edits.items():
        with open(os.path.join(place, path), "w", encoding="utf-8") as file:
            file.write(text)
    print(os.path.join(place, "chc"))


def write_copies(words):
    known = known_edits()
    for name in words.means or known:
        if name not in known:
            sys.exit(f"no means {name}: there are {', '.join(known)}")
        write_copy(words.folder, name, known[name])


def program_of(word):
    """A program with the name by which the table has it."""
    name, sign, program = word.partition("=")
    if not sign:
        raise argparse.ArgumentTypeError(f"{word} is no NAME=PROGRAM")
    return name, os.path.abspath(program)


def print_table(words):
    programs = words.programs
    names = sorted(it for it in os.listdir(words.scripts) if it.endswith(".smt2") and words.only in it)
    print(f"{'script':32}" + "".join(f" {name:>18}" for name, _ in programs))
    solved = {name: set() for name, _ in programs}
    spent = {name: 0.0 for name, _ in programs}
    differ = []
    for script in names:
        cells, told = [], set()
        for name, program in programs:
            ran = run([*launched(program), "solve", "--workers", str(words.workers)], os.path.join(words.scripts, script), words.seconds)
            answer = answer_of(ran)
            if answer in SOLVED:
                solved[name].add(script)
                told.add(answer)
            spent[name] += ran.seconds
            cells.append(f" {answer:>11} {ran.seconds:6.2f}")
        if len(told) > 1:
            differ.append(script)
        print(f"{script.removesuffix('.smt2'):32}" + "".join(cells), flush=True)
    first = solved[programs[0][0]]
    for name, _ in programs:
        own = solved[name]
        shown = [f"+{it.removesuffix('.smt2')}" for it in sorted(own - first)] + [f"-{it.removesuffix('.smt2')}" for it in sorted(first - own)]
        print(f"{name}: {len(own)} of {len(names)} in {spent[name]:.1f} s {' '.join(shown)}")
    if differ:
        sys.exit(f"answers differ: {' '.join(differ)}")


def main():
    words = argparse.ArgumentParser(description=__doc__, formatter_class=argparse.RawDescriptionHelpFormatter)
    calls = words.add_subparsers(required=True)
    copies = calls.add_parser("copies", help="write copies of the repository, one for each means")
    copies.add_argument("folder", help="that the copies are written into")
    copies.add_argument("means", nargs="*", help="those that are wanted, by name; all where none is named")
    copies.set_defaults(call=write_copies)
    table = calls.add_parser("table", help="run built programs on scripts")
    table.add_argument("scripts", help="a folder of files that end in .smt2")
    table.add_argument("programs", nargs="+", type=program_of, metavar="NAME=PROGRAM", help="built programs; the others are held against the first")
    table.add_argument("--seconds", type=int, default=2, help="of processor time for each run")
    table.add_argument("--only", default="", help="scripts whose names have this")
    table.add_argument("--workers", type=int, default=1, help="of each run")
    table.set_defaults(call=print_table)
    words = words.parse_args()
    words.call(words)


if __name__ == "__main__":
    main()
