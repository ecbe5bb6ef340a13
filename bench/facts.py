#!/usr/bin/env python3
"""Measures `chc solve` on a script of facts of 16,000,000 bytes, against z3 where that is installed.

The script declares one predicate of 256 integers and asserts facts about it, with numerals below
1,000,000 drawn from a seeded generator, so that each run measures the same bytes. White space fills
it up to its size.
"""

import argparse
import random
import sys
import tempfile

from measure import compare

ARGUMENTS = 256
BELOW = 10**6


def write_script(file, size, seed):
    """Writes the script, exactly `size` bytes, and answers the number of its facts.

    It is written fact by fact, since the peak that the system reports of a child includes what this
    process held when it started the child."""
    numbers = random.Random(seed)
    head = "(set-logic HORN)\n(declare-fun p (" + " ".join(["Int"] * ARGUMENTS) + ") Bool)\n"
    tail = "(check-sat)\n"
    left = size - len(head) - len(tail)
    if left < 0:
        sys.exit("facts.py: the size is too small for a script")
    file.write(head)
    facts = 0
    while True:
        numerals = " ".join(str(numbers.randrange(BELOW)) for _ in range(ARGUMENTS))
        fact = "(assert (p " + numerals + "))\n"
        if len(fact) > left:
            break
        file.write(fact)
        left -= len(fact)
        facts += 1
    for _ in range(left):
        file.write(" ")
    file.write(tail)
    file.flush()
    return facts


def main():
    words = argparse.ArgumentParser(description=__doc__, formatter_class=argparse.RawDescriptionHelpFormatter)
    words.add_argument("--size", type=int, default=16_000_000, help="bytes of the script")
    words.add_argument("--seed", type=int, default=1, help="of the numerals")
    words.add_argument("--runs", type=int, default=3, help="of each program")
    words.add_argument("--keep", metavar="FILE", help="writes the script to this file, and runs nothing")
    words = words.parse_args()

    if words.keep:
        with open(words.keep, "w", encoding="ascii") as file:
            print(f"{write_script(file, words.size, words.seed)} facts")
        return
    with tempfile.NamedTemporaryFile("w", encoding="ascii", suffix=".smt2") as file:
        facts = write_script(file, words.size, words.seed)
        print(f"{words.size} bytes, {facts} facts over {ARGUMENTS} integers, seed {words.seed}")
        compare(file.name, words.runs)


if __name__ == "__main__":
    main()
