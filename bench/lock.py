#!/usr/bin/env python3
"""What the lock of a shared book costs: for each script, with a number of workers, how many steps were
offered and refused, by rule, and which share of the processor time went into commits, which are made under
the lock, and into waiting for it.

Steps are counted in a run under gdb, at each return of `broken_step`, which tells the first rule that a
step breaks; shares are of a run under perf. Both read the names in the program, so it needs gdb and perf
(the Debian packages `gdb` and `linux-perf`), and a run of several workers is never the same twice.

    bench/lock.py SCRIPT .. [--workers N]"""

import argparse
import collections
import os
import re
import subprocess
import sys
import tempfile

from measure import chc_program

COUNTS = """
import gdb

class Returned(gdb.FinishBreakpoint):
    def __init__(self, frame, at):
        super().__init__(frame, internal=True)
        self.at = at

    def stop(self):
        held = gdb.selected_inferior().read_memory(self.at, 24).tobytes()
        is_memory, is_broken = held[0] & 1, held[8] & 1
        print("step", "memory" if is_memory else held[16] if is_broken else "taken")
        return False

class Called(gdb.Breakpoint):
    def stop(self):
        Returned(gdb.newest_frame(), int(gdb.parse_and_eval("$rdi")))
        return False

Called("step_rules::breaking::broken_step")
gdb.execute("run")
"""
COMMIT = re.compile(r"Book::commit\b")
WAIT = re.compile(r"futex|pthread_(mutex|cond)|lll_lock")


def steps_of(program, script, workers, seconds):
    """How many steps were taken, and how many were refused by each rule."""
    with tempfile.NamedTemporaryFile("w", suffix=".py") as file:
        file.write(COUNTS)
        file.flush()
        words = f"set args solve --workers {workers} < {script} > /dev/null"
        before = [it for one in ("set pagination off", "set debuginfod enabled off", words) for it in ("-ex", one)]
        ran = subprocess.run(["timeout", str(seconds), "gdb", "-q", "-batch", *before, "-x", file.name, program],
                             stdout=subprocess.PIPE, stderr=subprocess.DEVNULL, text=True, errors="replace", check=False)
    return collections.Counter(re.findall(r"^step (\w+)$", ran.stdout, re.MULTILINE))


def shares_of(program, script, workers, seconds):
    """The shares of samples in commits and in waiting."""
    with tempfile.TemporaryDirectory() as folder, open(script, "rb") as given:
        data = os.path.join(folder, "perf.data")
        subprocess.run(["timeout", str(seconds), "perf", "record", "-q", "-g", "-o", data, program, "solve", "--workers", str(workers)],
                       stdin=given, stdout=subprocess.DEVNULL, stderr=subprocess.DEVNULL, check=False)
        said = subprocess.run(["perf", "script", "-i", data, "-F", "ip,sym"], stdout=subprocess.PIPE,
                              stderr=subprocess.DEVNULL, text=True, errors="replace", check=False).stdout
    stacks = [it for it in said.split("\n\n") if it.strip()]
    every = max(len(stacks), 1)
    return (sum(bool(COMMIT.search(it)) for it in stacks) / every,
            sum(bool(WAIT.search(it)) and not COMMIT.search(it) for it in stacks) / every)


def main():
    parser = argparse.ArgumentParser(description=__doc__, formatter_class=argparse.RawDescriptionHelpFormatter)
    parser.add_argument("scripts", nargs="+")
    parser.add_argument("--workers", type=int, default=4)
    parser.add_argument("--seconds", type=int, default=30)
    words = parser.parse_args()
    program = chc_program()
    for script in words.scripts:
        steps = steps_of(program, script, words.workers, words.seconds)
        if not steps:
            print(f"{script}: no step was seen")
            return 1
        commits, waits = shares_of(program, script, words.workers, words.seconds)
        refused = {rule: n for rule, n in sorted(steps.items()) if rule not in ("taken", "memory")}
        told = ", ".join(f"rule {rule}: {n}" for rule, n in refused.items()) or "none"
        print(f"{os.path.basename(script)}: {sum(steps.values())} steps offered, refused {sum(refused.values())} ({told}); "
              f"commits {commits:.3f} of the time, waiting {waits:.3f}", flush=True)
    return 0


if __name__ == "__main__":
    sys.exit(main())
