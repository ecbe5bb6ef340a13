#!/usr/bin/env python3
"""Measures `chc solve` on a script of 65,000 rules with ten variables each, against z3 where that is
installed.

Each rule is `(forall ((x0 Int) .. (x9 Int)) (=> (and (p x0 .. x9) (< x0 x1)) (p x1 .. x9 x0)))`, and is
made into a normal clause. Half as many rules are measured too, and the ratio of the two times tells
whether time grows with the script alone.

It fails where `chc` takes more than half of the time of z3, more than 1 GiB, or more than 2.5 times as
long for twice the rules."""

import argparse
import tempfile

from measure import compare, judge

VARIABLES = 10


def write_script(file, rules):
    """Writes the script with that many rules."""
    names = [f"x{i}" for i in range(VARIABLES)]
    binder = " ".join(f"({name} Int)" for name in names)
    body = f"(and (p {' '.join(names)}) (< x0 x1))"
    head = f"(p {' '.join(names[1:] + names[:1])})"
    rule = f"(assert (forall ({binder}) (=> {body} {head})))\n"
    file.write("(set-logic HORN)\n(declare-fun p (" + " ".join(["Int"] * VARIABLES) + ") Bool)\n")
    for _ in range(rules):
        file.write(rule)
    file.write("(check-sat)\n")
    file.flush()
    return len(rule)


def main():
    words = argparse.ArgumentParser(description=__doc__, formatter_class=argparse.RawDescriptionHelpFormatter)
    words.add_argument("--rules", type=int, default=65_000, help="of the longer script")
    words.add_argument("--runs", type=int, default=3, help="of each program")
    words = words.parse_args()
    measured = []
    for rules in (words.rules // 2, words.rules):
        with tempfile.NamedTemporaryFile("w", encoding="ascii", suffix=".smt2") as file:
            length = write_script(file, rules)
            print(f"{rules} rules of {length} bytes over {VARIABLES} variables")
            measured.append(compare(file.name, words.runs))
    judge(*measured, part=1 / 2, most_bytes=2**30)


if __name__ == "__main__":
    main()
