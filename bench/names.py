#!/usr/bin/env python3
"""Measures `chc solve` on scripts with many names that are hard to tell apart, against z3 where that is
installed.

Each script declares 4,096 predicates, binds names by one `let` of an assertion, and uses each of them
once. The names are of one of two kinds: all begin alike, so that whoever orders them compares as many
bytes as it can be made to; or all have the same length and the same sum of powers of 31, which many hash
tables go by, and so whoever has such a table finds them all in one place of it. With `--colliding` the
names of a file, one a line, are measured too. Half as many names of each kind are measured as well, and
the ratio of the two times tells whether time grows with the script alone, whichever names are chosen."""

import argparse
import tempfile

from measure import compare

PREDICATES = 4_096


def alike(number):
    """The name of that number, which begins as all do."""
    return "x" * 40 + f"{number:07}"


def colliding(number):
    """The name of that number, whose sum of powers of 31 is that of all: `Aa` and `BB` have the same."""
    return "".join(("Aa", "BB")[number >> place & 1] for place in range(20))


def write_script(file, names, name):
    """Writes the script with that many bound names, and returns its length."""
    declared = [name(names + i) for i in range(PREDICATES)]
    bound = " ".join(f"({name(i)} true)" for i in range(names))
    used = " ".join(name(i) for i in range(names - 1, -1, -1))
    parts = ["(set-logic HORN)\n"]
    parts += [f"(declare-const {it} Bool)\n" for it in declared]
    parts.append(f"(assert (=> (let ({bound}) (and {used})) {declared[-1]}))\n")
    parts += [f"(assert {it})\n" for it in declared]
    parts.append("(check-sat)\n")
    text = "".join(parts)
    file.write(text)
    file.flush()
    return len(text)


def main():
    words = argparse.ArgumentParser(description=__doc__, formatter_class=argparse.RawDescriptionHelpFormatter)
    words.add_argument("--names", type=int, default=100_000, help="bound in the longer script")
    words.add_argument("--runs", type=int, default=3, help="of each program")
    words.add_argument("--colliding", metavar="FILE", help="names, as `colliding.c` makes them")
    words = words.parse_args()
    kinds = [("that begin alike", alike, words.names), ("of one sum of powers of 31", colliding, words.names)]
    if words.colliding:
        with open(words.colliding, encoding="ascii") as file:
            lines = file.read().split()
        kinds.append(("of a file", lines.__getitem__, len(lines) - PREDICATES))
    for kind, name, most in kinds:
        for names in (most // 2, most):
            with tempfile.NamedTemporaryFile("w", encoding="ascii", suffix=".smt2") as file:
                length = write_script(file, names, name)
                print(f"{names} bound names {kind} in {length} bytes")
                compare(file.name, words.runs)


if __name__ == "__main__":
    main()
