#!/usr/bin/env python3
"""Prints the crates from top to bottom, each with those on which it stands directly, as `crates.txt` has them.

Refuses another list in the first block of ARCHITECTURE.md; with the word `write` it puts the list there. Crates whose
names say that they are tests alone or for the benchmarks aren't listed. Run it by hand; the proofs don't need it.
"""
import functools
import itertools
import re
import sys
from pathlib import Path

TOP = Path(__file__).resolve().parents[1]
PAGE = TOP / "docs" / "ARCHITECTURE.md"
LEFT_OUT = ("test_", "bench_")


def read():
    """What each crate stands on, and the crates of each layer under its heading, from bottom to top."""
    below, layers = {}, []
    for line in (TOP / "crates.txt").read_text().splitlines():
        match = re.match(r"(\w+)(?: [\w=+]+)*:(.*)", line)
        if line.startswith("#"):
            layers.append((line[1:].strip(), []))
        elif match:
            below[match[1]] = match[2].split()
            layers[-1][1].append(match[1])
    return {crate: [other for other in others if other in below] for crate, others in below.items()}, layers


def main():
    below, layers = read()

    @functools.lru_cache(None)
    def reached(crate):
        return frozenset(below[crate]).union(*map(reached, below[crate]))

    def directly(crate):
        return tuple(other for other in below[crate] if not any(other in reached(more) for more in below[crate]))

    lines = []
    for heading, crates in reversed(layers):
        listed = [crate for crate in crates if not crate.startswith(LEFT_OUT)]
        if not listed:
            continue
        lines.append(heading)
        for others, names in itertools.groupby(reversed(listed), directly):
            lines.append("    " + ", ".join(reversed(list(names))) + (" -> " + ", ".join(others) if others else ""))
    block = "\n".join(lines) + "\n"
    print(block, end="")
    page = PAGE.read_text()
    start = page.index("```\n") + 4
    end = page.index("```", start)
    if sys.argv[1:] == ["write"]:
        PAGE.write_text(page[:start] + block + page[end:])
        return 0
    if page[start:end] != block:
        print("ARCHITECTURE.md lists other crates, or in another order", file=sys.stderr)
        return 1
    return 0


sys.exit(main())
