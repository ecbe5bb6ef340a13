#!/usr/bin/env python3
"""Measures `chc check` on derivations of 100,000 steps, against reading them alone.

Reading is measured by the same input with a word behind its end: the whole answer is read, and then it is
wrong at that word's byte, before any step is looked at. Both kinds have a step for each number from 0 on:

- `chain`: a counter of one integer, each step from the one before it;
- `pairs`: steps of two premises, by an assertion over six variables with `ite` and comparisons.

Prints for each kind the seconds of processor time of both, the ratio, and the ratio of the time to that of
half as many steps. Fails where an answer isn't valid, where one step's value is moved and check says
otherwise than that this step is wrong, where checking takes more than `--most` times the time of reading, or
where twice the steps take more than 2.5 times as long."""

import argparse
import random
import sys
import tempfile

from measure import chc_program, launched, run

RUNS = 3
CHAIN = """(set-logic HORN)
(declare-fun p (Int) Bool)
(assert (p 0))
(assert (forall ((n Int)) (=> (p n) (p (+ n 1)))))
(assert (not (p {last})))
(check-sat)
"""
PAIRS = """(set-logic HORN)
(declare-fun p (Int Int Bool) Bool)
(assert (p 0 0 true))
(assert (forall ((a Int) (b Int) (c Int) (d Int) (u Bool) (v Bool))
  (=> (and (p a b u) (p c d v) (<= c a) (< (- d b) 5)) (p (+ a 1) (ite u (+ b 2) (- b 1)) (not u)))))
(assert (forall ((b Int) (u Bool)) (not (p {last} b u))))
(check-sat)
"""


def text(value):
    """An integer or a truth value as a derivation has it."""
    if isinstance(value, bool):
        return "true" if value else "false"
    return str(value) if value >= 0 else f"(- {-value})"


def line(number, assertion, values, premises, head):
    values, premises = " ".join(map(text, values)), " ".join(map(str, premises))
    head = f"(p {' '.join(map(text, head))})" if head else "false"
    return f"(step {number} {assertion} ({values}) ({premises}) {head})\n"


def chain(steps):
    """The lines of a derivation of that many steps."""
    yield line(1, 1, (), (), (0,))
    for number in range(2, steps):
        yield line(number, 2, (number - 2,), (number - 1,), (number - 1,))
    yield line(steps, 3, (), (steps - 1,), None)


def pairs(steps):
    """The same, whose second premise is one of the last 30 steps that the guard allows."""
    chance = random.Random(1)
    heads = [(0, 0, True)]
    yield line(1, 1, (), (), heads[0])
    for number in range(2, steps):
        a, b, u = heads[-1]
        allowed = [it for it in range(max(0, number - 31), number - 1) if heads[it][1] - b < 5]
        other = chance.choice(allowed)
        c, d, v = heads[other]
        heads.append((a + 1, b + 2 if u else b - 1, not u))
        yield line(number, 2, (a, b, c, d, u, v), (number - 1, other + 1), heads[-1])
    yield line(steps, 3, heads[-1][1:], (steps - 1,), None)


def write(path, script, lines, steps, behind=""):
    with open(path, "w", encoding="ascii") as file:
        file.write(script.format(last=steps - 2) + ";;answer\nunsat\n(derivation\n")
        file.writelines(lines)
        file.write(")\n" + behind)


def measure(program, path, wanted):
    """The least seconds of some runs, each of which must say this."""
    ran = [run([*launched(program), "check"], path) for _ in range(RUNS)]
    for it in ran:
        if it.output.decode() != wanted:
            sys.exit(f"check says {it.output[:100]!r} in place of {wanted!r}")
    return min(it.seconds for it in ran)


def try_kind(program, name, script, make, steps, most):
    """Prints the row of one kind, and returns what is too slow."""
    with tempfile.TemporaryDirectory() as folder:
        path = f"{folder}/input"
        write(path, script, make(steps // 2), steps // 2)
        half = measure(program, path, "valid\n")
        lines = list(make(steps))
        write(path, script, lines, steps)
        whole = measure(program, path, "valid\n")
        write(path, script, lines, steps, "x")
        with open(path, "rb") as file:
            size = len(file.read())
        read = measure(program, path, f"wrong\n; byte {size - 1}\n")
        at = steps * 2 // 3
        spoilt = lines[at].replace(f" 2 ({at - 1}", f" 2 ({at}", 1)
        write(path, script, [*lines[:at], spoilt, *lines[at + 1 :]], steps)
        measure(program, path, f"wrong\n; step {at + 1}\n")
    print(f"{name}: {steps} steps, {size} bytes: checked in {whole:.2f} s, read alone in {read:.2f} s: {whole / read:.2f} times")
    print(f"    half as many in {half:.2f} s: {whole / half:.2f} times")
    faults = [f"{name}: checking takes more than {most} times the time of reading"] if whole > most * read else []
    return faults + ([f"{name}: time does not grow with the steps alone"] if whole > 2.5 * half else [])


def main():
    words = argparse.ArgumentParser(description=__doc__, formatter_class=argparse.RawDescriptionHelpFormatter)
    words.add_argument("--steps", type=int, default=100_000)
    words.add_argument("--most", type=float, default=2, help="times the time of reading that checking may take")
    words = words.parse_args()
    program = chc_program()
    faults = try_kind(program, "chain", CHAIN, chain, words.steps, words.most)
    faults += try_kind(program, "pairs", PAIRS, pairs, words.steps, words.most)
    if faults:
        sys.exit("; ".join(faults))


if __name__ == "__main__":
    main()
