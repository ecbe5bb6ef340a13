#!/usr/bin/env python3
"""Measures `chc solve` on a script of 10,000 assertions as the front ends of program verifiers print
them, against z3 where that is installed.

Each assertion says how one block of a program leads to another: it has ten integers and two truth
values, two layers of `let` with ten names each, some of them for integers and some for truth values,
choices and comparisons, two body atoms and a head. Its constants come from a seeded generator, so that
each run measures the same bytes. Every clause has a head, so that what is measured is reading, checking
and making the clauses. Half as many assertions are measured too, and the ratio of the two times tells
whether time grows with the script alone.

It fails where `chc` takes more than a third of the time of z3, or more than 2.5 times as long for twice
the assertions."""

import argparse
import random
import tempfile

from measure import compare, judge

BLOCKS = 100

# One assertion. In braces: the blocks that it leads from and to, and constants.
ASSERTION = """\
(assert (forall ((A Int) (B Int) (C Int) (D Int) (E Int) (F Int) (G Int) (H Int) (I Int) (J Int) (K Bool) (L Bool))
  (let ((a!1 (+ A {0}))
        (a!2 (- B C))
        (a!3 (<= A B))
        (a!4 (< (+ C D) {1}))
        (a!5 (ite (< A B) A B))
        (a!6 (* {2} D))
        (a!7 (= E F))
        (a!8 (>= E {3}))
        (a!9 (+ E F (* (- 1) G)))
        (a!10 (not (= G {4}))))
  (let ((a!11 (ite a!3 a!1 a!2))
        (a!12 (and a!3 (not a!4)))
        (a!13 (or a!7 a!8 K))
        (a!14 (ite (and a!4 K) a!5 a!6))
        (a!15 (=> a!10 (<= a!9 {5})))
        (a!16 (+ a!1 (* (- 1) a!2)))
        (a!17 (ite a!8 (+ H 1) H))
        (a!18 (> a!9 (- {6})))
        (a!19 (and a!10 (or L (= H {7}))))
        (a!20 (ite a!10 a!6 (- a!6))))
    (=> (and (|main@block{8}| A B C D E K)
             (|main@memory| F G H L)
             a!12 a!13 a!15 a!18 a!19
             (= I (+ a!11 a!20))
             (= J a!14))
        (|main@block{9}| I J a!16 a!17 E a!7))))))
"""


def write_script(file, assertions, seed):
    """Writes the script with that many assertions."""
    numbers = random.Random(seed)
    file.write("; printed by a front end\n(set-info :status sat)\n(set-logic HORN)\n")
    for block in range(BLOCKS):
        file.write(f"(declare-fun |main@block{block}| (Int Int Int Int Int Bool) Bool)\n")
    file.write("(declare-fun |main@memory| (Int Int Int Bool) Bool)\n")
    for number in range(assertions):
        constants = [numbers.randrange(1, 1000) for _ in range(8)]
        file.write(ASSERTION.format(*constants, number % BLOCKS, numbers.randrange(BLOCKS)))
    file.write("(check-sat)\n")
    file.flush()
    return file.tell()


def main():
    words = argparse.ArgumentParser(description=__doc__, formatter_class=argparse.RawDescriptionHelpFormatter)
    words.add_argument("--assertions", type=int, default=10_000, help="of the longer script")
    words.add_argument("--seed", type=int, default=1, help="of the constants")
    words.add_argument("--runs", type=int, default=3, help="of each program")
    words.add_argument("--keep", metavar="FILE", help="writes the longer script to this file, and runs nothing")
    words = words.parse_args()
    if words.keep:
        with open(words.keep, "w", encoding="ascii") as file:
            print(f"{write_script(file, words.assertions, words.seed)} bytes")
        return
    measured = []
    for assertions in (words.assertions // 2, words.assertions):
        with tempfile.NamedTemporaryFile("w", encoding="ascii", suffix=".smt2") as file:
            length = write_script(file, assertions, words.seed)
            print(f"{assertions} assertions in {length} bytes")
            measured.append(compare(file.name, words.runs))
    judge(*measured, part=1 / 3)


if __name__ == "__main__":
    main()
