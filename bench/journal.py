#!/usr/bin/env python3
"""What a long journal, a version of its book and a look-up of a fact cost, each against a baseline of the same run.

    bench/journal.py [--program FILE] [--runs N]

The run is by hand, on the clauses of ten counters: each begins at 0 and goes up by one, and no counter may be
a million above the one before it. Level after level there is a Raise, then 240 facts, each with an Open that
asks for it, and then an Open and a Lemma for each counter: 501 steps (`counted.rt` of `test_book`). It is cut
off at 2,500 and at 5,000 units, and its journal is committed to a second book.

What is measured are tests of `test_book`, each run alone by its name, in pairs: one makes the book, the other
makes it and goes on. A figure is the difference of the least processor times of both, and for the journals,
where there is `valgrind`, of their counted instructions, which other work on the machine doesn't change. The
look-ups are held against plain hashed maps that rustc compiles (`finds.rs`).

It fails where twice the units take more than 2.3 times the instructions (the time, where they aren't counted),
where a version takes more than 1/50 of a copy of the journal's steps alone, or where a look-up takes more than
three times as long as in a hashed map."""

import argparse
import os
import re
import resource
import shutil
import subprocess
import sys
import tempfile

TOP = os.path.dirname(os.path.dirname(os.path.abspath(__file__)))
PROGRAM = f"{TOP}/crates/test_book/out/book_rows_tests"

# How often the tests do what they are there for.
VERSIONS, COPIES, FINDS = 2_000, 8, 1_000_000
MOST_REPLAY, LEAST_SHARE, MOST_FIND = 2.3, 50, 3.0


def seconds(words):
    """The processor time of one run."""
    before = resource.getrusage(resource.RUSAGE_CHILDREN)
    subprocess.run(words, stdout=subprocess.DEVNULL, check=True)
    after = resource.getrusage(resource.RUSAGE_CHILDREN)
    return after.ru_utime + after.ru_stime - before.ru_utime - before.ru_stime


def least(commands, runs):
    """The least time of each command, which take turns."""
    best = [float("inf")] * len(commands)
    for _ in range(runs):
        best = [min(old, seconds(words)) for old, words in zip(best, commands)]
    return best


def more(first, second, runs):
    """How much longer the second command takes."""
    one, other = least([first, second], runs)
    return other - one


def instructions(words):
    with tempfile.TemporaryDirectory() as folder:
        whole = ["valgrind", "--tool=callgrind", f"--callgrind-out-file={folder}/out", *words]
        said = subprocess.run(whole, stdout=subprocess.DEVNULL, stderr=subprocess.PIPE, check=True).stderr
        return int(re.search(rb"Collected : (\d+)", said)[1])


def is_within(ratio, most):
    return "" if ratio <= most else f" (more than {most:g})"


def replays(program, runs):
    names = [f"long_runs::a_run_of_{units}_units{again}" for units in ("2_500", "5_000") for again in ("", "_again")]
    commands = [[program, name] for name in names]
    times = least(commands, runs)
    small, large = times[1] - times[0], times[3] - times[2]
    print(f"journals committed again: 2,500 entries {1e3 * small:.1f} ms, 5,000 entries {1e3 * large:.1f} ms")
    ratio = large / small
    if not shutil.which("valgrind"):
        print(f"  twice the units take {ratio:.2f} times as long{is_within(ratio, MOST_REPLAY)}")
        return ratio <= MOST_REPLAY
    print(f"  twice the units take {ratio:.2f} times as long")
    counts = [instructions(words) for words in commands]
    small, large = counts[1] - counts[0], counts[3] - counts[2]
    ratio = large / small
    counted = f"{small / 1e6:.0f} and {large / 1e6:.0f} million"
    print(f"  and {ratio:.2f} times the instructions, {counted}{is_within(ratio, MOST_REPLAY)}")
    return ratio <= MOST_REPLAY


def versions(program, runs):
    made = [program, "long_runs::a_run_of_5_000_units"]
    version = more(made, [program, "long_runs::versions_of_a_run"], runs) / VERSIONS
    copy = more(made, [program, "long_runs::copies_of_a_run"], runs) / COPIES
    share = copy / version
    print(f"a version of the book of 5,000 entries {1e6 * version:.1f} us, a copy of its steps {1e3 * copy:.2f} ms")
    print(f"  the version takes 1/{share:.0f} of the time" + ("" if share >= LEAST_SHARE else f" (more than 1/{LEAST_SHARE})"))
    return share >= LEAST_SHARE


def finds(program, runs):
    with tempfile.TemporaryDirectory() as folder:
        subprocess.run(["rustc", "-O", "-o", f"{folder}/finds", f"{TOP}/bench/finds.rs"], check=True)
        hashed = more([f"{folder}/finds"], [f"{folder}/finds", "found"], runs) / FINDS
    made, found = "finds::a_hundred_thousand_facts", "finds::a_hundred_thousand_facts_found"
    own = more([program, made], [program, found], runs) / FINDS
    ratio = own / hashed
    print(f"one of 100,000 facts found {1e9 * own:.0f} ns, in a hashed map {1e9 * hashed:.0f} ns")
    print(f"  it takes {ratio:.2f} times as long{is_within(ratio, MOST_FIND)}")
    return ratio <= MOST_FIND


def main():
    parser = argparse.ArgumentParser(description=__doc__.split("\n\n", 1)[0])
    parser.add_argument("--program", default=PROGRAM, help="the tests of test_book, built")
    parser.add_argument("--runs", type=int, default=11, help="how often each test is run")
    given = parser.parse_args()
    program = os.path.abspath(given.program)
    if not os.path.isfile(program):
        print(f"{program} isn't there: `rt test` in crates/test_book proves and builds it", file=sys.stderr)
        return 2
    well = [replays(program, given.runs), versions(program, given.runs), finds(program, given.runs)]
    return 0 if all(well) else 1


sys.exit(main())
