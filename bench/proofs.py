#!/usr/bin/env python3
"""What the check of a library costs: processor time by kind of module and by function, and the longest searches.

A library is checked from nothing by one process, over the libraries below it as `./chc` has built them. The
seconds of a module are those between the times at which its file and the one before it were written, so they
are seconds by the clock: nothing else should run. The first of them has the start of the check with it. What
doesn't vary with what else runs is the size of the modules, and the steps of the searches by which goals were
closed, 0.7 seconds of processor time a million.

With `--against REVISION` the library's text of that revision is checked first, over the same libraries, and
the ratio of the processor times is printed: it is for a change that leaves what the library states as it was."""

import argparse
import collections
import importlib.machinery
import importlib.util
import os
import re
import resource
import shutil
import subprocess
import sys
import tarfile
import tempfile
from typing import NamedTuple

from measure import TOP

GOAL = re.compile(rb'"name":"([^"]*)"(?:(?!"name":").)*?"steps":\[([\d,]+)\]', re.DOTALL)
RECORDS = "records"
RECORD = ".decls.oantt"
MODULE = ".oantt"


class Cost(NamedTuple):
    """Processor time of a check, and what its modules and goals took."""

    seconds: float
    kinds: dict
    functions: dict
    goals: dict


def functions_of_rt():
    """The functions of rt, the kit's command, as the launcher takes them."""
    rt = shutil.which("rt") or sys.exit("the command rt is not on the PATH")
    path = os.path.join(os.path.dirname(os.path.realpath(rt)), "rtlib.py")
    if not os.path.isfile(path):
        sys.exit("the kit has other insides than this script knows: no rtlib.py stands beside rt")
    sys.dont_write_bytecode = True
    loader = importlib.machinery.SourceFileLoader("rtlib", path)
    rtlib = importlib.util.module_from_spec(importlib.util.spec_from_loader("rtlib", loader))
    sys.modules["rtlib"] = rtlib
    loader.exec_module(rtlib)
    return rtlib


def text_of(revision, name, folder):
    """The folder of the crate as it stands in that revision, below another one."""
    archive = os.path.join(folder, "text.tar")
    subprocess.run(["git", "-C", TOP, "archive", "-o", archive, revision, f"crates/{name}"], check=True)
    with tarfile.open(archive) as text:
        text.extractall(folder)
    return os.path.join(folder, "crates", name)


def written(kept):
    """The modules that a check wrote, in order: time, name and size of each."""
    found = []
    for place, _, names in os.walk(kept):
        if os.path.basename(place) != RECORDS:
            for name in names:
                if name.endswith(MODULE):
                    state = os.stat(os.path.join(place, name))
                    found.append((state.st_mtime, name[: -len(MODULE)], state.st_size))
    return sorted(found)


def searched(kept, prefix):
    """The steps of each goal and lemma."""
    goals = {}
    for place, _, names in os.walk(kept):
        if os.path.basename(place) == RECORDS:
            for name in names:
                with open(os.path.join(place, name), "rb") as file:
                    data = file.read()
                module = name[: -len(RECORD)].replace(prefix, "")
                for found in GOAL.finditer(data):
                    steps = sum(int(it) for it in found[2].split(b","))
                    goals[f"{module} {found[1].decode(errors='replace')}"] = steps
    return goals


def cost_of(rtlib, crate, folder, flags):
    """Checks the crate's text in the folder."""
    words = crate.words(["--jobs", "1"], keeps=False)
    prefix = f"Rattle-{crate.name}-proofs."
    with tempfile.TemporaryDirectory() as kept:
        before = resource.getrusage(resource.RUSAGE_CHILDREN)
        command = [rtlib.RATTLE, "check", *words, *flags, "--incremental", kept]
        ran = subprocess.run(command, cwd=folder, capture_output=True, text=True)
        after = resource.getrusage(resource.RUSAGE_CHILDREN)
        if ran.returncode:
            sys.exit(ran.stdout[-4000:] + ran.stderr[-4000:])
        seconds = after.ru_utime + after.ru_stime - before.ru_utime - before.ru_stime
        kinds, functions = collections.defaultdict(lambda: [0, 0.0, 0]), collections.Counter()
        modules = written(kept)
        for (last, _, _), (at, name, size) in zip(modules, modules[1:]):
            function, _, kind = name.replace(prefix, "").rpartition(".")
            kinds[kind][0] += 1
            kinds[kind][1] += at - last
            kinds[kind][2] += size
            functions[function] += at - last
        return Cost(seconds, kinds, functions, searched(kept, prefix))


def show(cost, rows, least):
    """Prints the dearest kinds of modules, functions and goals."""
    print("modules by kind: how many, seconds, megabytes")
    for kind, (count, seconds, size) in sorted(cost.kinds.items(), key=lambda it: -it[1][1])[:rows]:
        print(f"  {kind:20} {count:5} {seconds:7.1f} {size / 1e6:7.1f}")
    print("functions: seconds of all their modules")
    for name, seconds in cost.functions.most_common(rows):
        print(f"  {name:50} {seconds:7.1f}")
    print(f"goals and lemmas of at least {least} million steps")
    for name, steps in sorted(cost.goals.items(), key=lambda it: -it[1]):
        if steps >= least * 1e6:
            print(f"  {name:70} {steps / 1e6:7.2f}")


def told(name, cost):
    return f"{name}: {cost.seconds:.1f} s of processor time, {sum(cost.goals.values()) / 1e6:.1f} million steps"


def main():
    parser = argparse.ArgumentParser(description=__doc__.split("\n", 1)[0])
    parser.add_argument("crates", nargs="+", metavar="CRATE")
    parser.add_argument("--against", metavar="REVISION", help="check the text of this revision, too")
    parser.add_argument("--only", action="append", default=[], metavar="FUNCTION", help="only this one and what it calls")
    parser.add_argument("--rows", type=int, default=15, help="how many kinds and functions are printed")
    parser.add_argument("--least", type=float, default=0.4, help="millions of steps of a goal that is printed")
    words = parser.parse_args()
    rtlib = functions_of_rt()
    flags = [it for name in words.only for it in ("--only", name)]
    for name in words.crates:
        crate = rtlib.Crate(os.path.join(TOP, "crates", name), TOP, {})
        if not all(os.path.isdir(below.rlib) for below in crate.below()):
            sys.exit(f"{name}: the libraries below it are not all built: start ./chc once")
        if words.against:
            with tempfile.TemporaryDirectory() as folder:
                theirs = cost_of(rtlib, crate, text_of(words.against, name, folder), flags)
            print(told(f"{name} of {words.against}", theirs))
        ours = cost_of(rtlib, crate, crate.folder, flags)
        print(told(name, ours))
        if words.against:
            print(f"{ours.seconds / theirs.seconds:.2f} times the processor time")
        show(ours, words.rows, words.least)


if __name__ == "__main__":
    main()
