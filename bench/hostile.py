#!/usr/bin/env python3
"""Texts at the limits of what is read, each of which must end with its own status and text: not by a signal, not
late, and not with more memory than the text is worth.

Each text is made at full and at half size. For each this prints the size, the status, the seconds of processor
time and the peak of memory, and how much longer the full size takes. It fails where a run ends otherwise
than it must, where twice the size takes more than 2.5 times as long (times below 0.1 s count as that), where a run takes
more than 60 bytes of memory a byte of text, besides 32 MiB and what this script itself has, which the system counts for
a child until it has more, or more than 5 s of processor time. A number, `--seed`,
chooses names, numerals and values. With words it runs the texts whose names have one of these: `bench/hostile.py let not`."""

import argparse
import random
import resource
import sys
import tempfile
from typing import NamedTuple

from measure import MARKER, chc_program, launched, run_on

MOST_GROWTH, LEAST_SECONDS, MOST_SECONDS = 2.5, 0.1, 5
BYTES_A_BYTE, BYTES_BESIDES = 60, 32 << 20
TEXT = 1 << 24
LOGIC, QUESTION = "(set-logic HORN)", "(check-sat)"
DECLARED = "(declare-const q Bool)"


class Case(NamedTuple):
    """A text of that size, the words of its call, and its end: the status, and how the output begins."""

    name: str
    size: int
    text: object
    end: object
    words: tuple = ("solve",)


def refused(kind, at, commands):
    return 1, f'(error "kind {kind} at byte {at} after {commands} commands")\n'


def always(status, start):
    return lambda _: (status, start)


def name(seed):
    """A name from the seed: two seeds give names of other lengths and letters."""
    some = random.Random(seed)
    return "".join(some.choice("abcdefghijklmnopqrstuvw") for _ in range(3 + seed % 5))


def predicates(seed, size):
    """So many predicates of 256 arguments."""
    some, front = random.Random(seed), name(seed)
    sorts = [" ".join(some.choice(("Int", "Bool")) for _ in range(256)) for _ in range(16)]
    lines = [f"(declare-fun {front}{number} ({sorts[number % 16]}) Bool)" for number in range(size)]
    return LOGIC + "".join(lines) + QUESTION


def asserted(_, size):
    return LOGIC + DECLARED + "(assert q)" * size + QUESTION


def lets(seed, size):
    """So many `let`s in one another, each of 16 names, each of which stands for one of the layer before."""
    some, front = random.Random(seed), name(seed)
    text = [LOGIC, "(declare-fun p (Int) Bool)(assert (forall ((y Int)) "]
    for layer in range(size):
        bound = [f"({front}{layer}.{number} {f'{front}{layer - 1}.{some.randrange(16)}' if layer else 'y'})" for number in range(16)]
        text.append(f"(let ({' '.join(bound)}) ")
    text += [f"(p {front}{size - 1}.{some.randrange(16)})", ")" * size, "))", QUESTION]
    return "".join(text)


def nested(front, begins, inner, ends, behind):
    """A text with so many lists in one another: each begins and ends so."""
    return lambda _, size: LOGIC + front + begins * size + inner + ends * size + behind + QUESTION


def many_bound(_, size):
    """So many quantifiers in one another, each of one variable."""
    binders = "".join(f"(forall ((y{number} Int)) " for number in range(size))
    return LOGIC + DECLARED + "(assert " + binders + "q" + ")" * size + ")" + QUESTION


def wide_clause(seed, size):
    """A clause of 64 body atoms, so many variables of its own and as many that stand for arguments."""
    some = random.Random(seed)
    variables = [f"y{number}" for number in range(size)]
    terms = [f"(+ {it} {some.randrange(1000)})" for it in variables]
    each = size // 64
    atoms = [f"(p {' '.join(terms[at * each:(at + 1) * each])})" for at in range(64)]
    front = f"(declare-fun p ({'Int ' * each}) Bool){DECLARED}"
    bound = " ".join(f"({it} Int)" for it in variables)
    return LOGIC + front + f"(assert (forall ({bound}) (=> (and {' '.join(atoms)}) q)))" + QUESTION


def distinct(seed, size):
    some = random.Random(seed)
    numbers = " ".join(str(some.randrange(10**6)) for _ in range(size))
    return LOGIC + DECLARED + f"(assert (=> (distinct {numbers} 0 0) q))" + QUESTION


def facts(seed, size):
    """So many clauses: facts, and a query that a lemma of two literals excludes."""
    some = random.Random(seed)
    lines = [f"(assert (p {at} {some.randrange(7)} {some.randrange(5)}))" for at in range(size - 1)]
    query = "(assert (forall ((x Int) (y Int) (z Int)) (not (and (p x y z) (< x 0) (< y 3) (> z 1)))))"
    return f"{LOGIC}(declare-fun p (Int Int Int) Bool){''.join(lines)}{query}{QUESTION}"


def turns(_, size):
    """So many clauses: facts and rules in turns, and a query."""
    rule = "(assert (forall ((x Int)) (=> (and (p x) (> x {at})) (p (+ x 1)))))"
    lines = [rule.format(at=at) if at % 2 else f"(assert (p {at}))" for at in range(size - 1)]
    return f"{LOGIC}(declare-fun p (Int) Bool){''.join(lines)}(assert (forall ((x Int)) (not (and (p x) (< x 0))))){QUESTION}"


def bytes_of(byte):
    return lambda _, size: byte * size


# What 2^24 copies of a byte are, by the lexicon, and half as many.
ONE_BYTE = {
    " ": lambda size: refused("18 NoCheckSat", size, 0),
    "\t": lambda size: refused("18 NoCheckSat", size, 0),
    "\r": lambda size: refused("18 NoCheckSat", size, 0),
    "\n": lambda size: refused("18 NoCheckSat", size, 0),
    ";": lambda size: refused("18 NoCheckSat", size, 0),
    "(": lambda _: refused("4 Deep", 2000, 0),
    ")": lambda _: refused("2 BadByte", 0, 0),
    "a": lambda _: refused("5 CommandForm", 0, 0),
    "_": lambda _: refused("5 CommandForm", 0, 0),
    "-": lambda _: refused("5 CommandForm", 0, 0),
    "|": lambda _: refused("5 CommandForm", 0, 0),
    '"': lambda _: refused("5 CommandForm", 0, 0),
    "1": lambda _: refused("5 CommandForm", 0, 0),
    "0": lambda _: refused("2 BadByte", 0, 0),
    ":": lambda _: refused("2 BadByte", 0, 0),
    "#": lambda _: refused("2 BadByte", 0, 0),
    "\\": lambda _: refused("2 BadByte", 0, 0),
    "\0": lambda _: refused("2 BadByte", 0, 0),
    "\v": lambda _: refused("2 BadByte", 0, 0),
    "\xff": lambda _: refused("2 BadByte", 0, 0),
}
ONE_MORE = MARKER.decode()
COUNTER = LOGIC + "(declare-fun p (Int) Bool)(assert (p 0))(assert (forall ((x Int)) (=> (p x) (p (+ x 1)))))(assert (not (p 3)))" + QUESTION


def definition(_, size):
    """A definition that is one conjunction of so many constants."""
    return f"{LOGIC}{DECLARED}(assert q){QUESTION}{ONE_MORE}sat ((define-fun q () Bool (and {'true ' * size})))"


def wrong_steps(_, size):
    """A derivation of so many steps, the last of which rests on the wrong one."""
    steps = ["(step 1 1 () () (p 0))"] + [f"(step {at} 2 ({at - 2}) ({at - 1}) (p {at - 1}))" for at in range(2, size)]
    return f"{COUNTER}{ONE_MORE}unsat (derivation {''.join(steps)}(step {size} 3 () ({size - 1}) false))"


def deep_answer(_, size):
    return f"{LOGIC}{QUESTION}{ONE_MORE}" + "(" * size


def deep_end(size):
    at = len(LOGIC + QUESTION + ONE_MORE)
    return 6, f"wrong\n; byte {at + 2000 if size > 2000 else at}\n"


CASES = [
    Case("predicates", 4096, predicates, always(0, "sat\n(\n(define-fun ")),
    Case("assertions", 65536, asserted, always(0, "sat\n(\n(define-fun q () Bool true)\n)\n")),
    Case("facts", 65536, facts, always(0, "sat\n")),
    Case("turns", 65536, turns, always(0, "sat\n")),
    Case("let", 1000, lets, always(0, "sat\n(\n(define-fun p ((x0 Int)) Bool true)\n)\n")),
    Case("nested not", 1998, nested(DECLARED + "(assert (=> ", "(not ", "true", ")", " q))"), always(0, "sat\n")),
    Case("nested and", 1998, nested(DECLARED + "(assert (=> ", "(and ", "true", ")", " q))"), always(0, "sat\n")),
    Case("nested sum", 1997, nested("(declare-fun p (Int) Bool)(assert (forall ((y Int)) (p ", "(+ ", "y", " 1)", ")))"), always(0, "sat\n")),
    Case("nested let", 1997, nested(DECLARED + "(assert ", "(let ((z true)) ", "q", ")", ")"), always(0, "sat\n")),
    Case("nested forall", 1024, many_bound, always(0, "sat\n")),
    Case("too many variables", 1997, many_bound, None),
    Case("clause", 1024, wide_clause, always(0, "sat\n")),
    Case("distinct", 62, distinct, always(0, "sat\n")),
    *(Case(f"byte {ord(byte)}", TEXT, bytes_of(byte), end) for byte, end in ONE_BYTE.items()),
    Case("definition", 1_000_000, definition, always(0, "valid\n"), ("check",)),
    Case("steps", 100_000, wrong_steps, lambda size: (6, f"wrong\n; step {size}\n"), ("check",)),
    Case("deep answer", 4000, deep_answer, deep_end, ("check",)),
]


def run_case(case, seed, size, words):
    """Runs the text of that size: seconds of processor time, and what is wrong with the run."""
    text = case.text(seed, size).encode("latin-1")
    with tempfile.TemporaryFile() as given:
        given.write(text)
        given.seek(0)
        ran = run_on([*words, *case.words], given, 4 * MOST_SECONDS)
    status, start = case.end(size) if case.end else refused("17 Count", len(LOGIC + DECLARED), 2)
    faults = []
    if ran.status != status or not ran.output.startswith(start.encode()):
        faults.append(f"ends with status {ran.status} and {ran.output[:80]!r}" + (f" ({ran.limit})" if ran.limit else ""))
    if ran.seconds > MOST_SECONDS:
        faults.append(f"takes {ran.seconds:.1f} s")
    besides = max(BYTES_BESIDES, resource.getrusage(resource.RUSAGE_SELF).ru_maxrss * 1024)
    if ran.peak > besides + BYTES_A_BYTE * len(text):
        faults.append(f"takes {(ran.peak - besides) / len(text):.0f} bytes of memory a byte")
    print(f"{case.name:20} {size:9} {len(text):9} bytes: status {ran.status}, {ran.seconds:7.3f} s, {ran.peak / 2**20:7.1f} MiB", flush=True)
    return ran.seconds, faults


def main():
    parser = argparse.ArgumentParser(description=__doc__, formatter_class=argparse.RawDescriptionHelpFormatter)
    parser.add_argument("names", nargs="*", help="words of the names of the texts to be run; all where there is none")
    parser.add_argument("--seed", type=int, default=7, help="the number from which names and numerals are chosen")
    given = parser.parse_args()
    words, all_faults = launched(chc_program()), []
    for case in CASES:
        if given.names and not any(it in case.name for it in given.names):
            continue
        half = case.size // 2 if case.end else (case.size + 1025) // 2
        half_seconds, half_faults = run_case(case, given.seed, half, words)
        seconds, faults = run_case(case, given.seed, case.size, words)
        growth = max(seconds, LEAST_SECONDS) / max(half_seconds, LEAST_SECONDS)
        if growth > MOST_GROWTH:
            faults.append(f"takes {growth:.1f} times as long for twice the size")
        all_faults += [f"{case.name}: {it}" for it in half_faults + faults]
    for fault in all_faults:
        print(fault)
    sys.exit(1 if all_faults else 0)


if __name__ == "__main__":
    main()
