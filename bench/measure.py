"""What the scripts here and `./certify` have in common: runs of a program with limits, the words of answers and
of scripts, and measures of `chc solve` beside `z3` on one script.

A measure prints seconds, peaks of memory and the ratio of the times. For each program the best of its runs counts: seconds of processor time, its own and the system's for it,
which other work on the machine hardly changes; seconds by the clock; and the peak of the memory that the
system gave it. Ratios are those of processor time."""

import contextlib
import os
import re
import resource
import shutil
import signal
import subprocess
import sys
import tempfile
import threading
import time
from typing import NamedTuple, Optional

TOP = os.path.dirname(os.path.dirname(os.path.realpath(__file__)))
# What a script says of its answer, and the line of an unknown answer that tells level and cause.
TOLD = re.compile(rb"^[^;\n]*\(set-info\s+:status\s+(sat|unsat)\s*\)|^;+ *expect: (sat|unsat)\b", re.MULTILINE)
LEVEL = re.compile(rb"^; level (\d+) (?:units (\d+)|(stalled|memory))$", re.MULTILINE)
# The line between a script and an answer, for `check`.
MARKER = b"\n;;answer\n"
TIMED_OUT = (-9, -24)
TOKEN = re.compile(r'\s+|;[^\n]*|"(?:[^"]|"")*"|\|[^|]*\||[()]|[^\s()|";]+')
# The processes that run, and whether all are to be ended.
running, ending = set(), threading.Event()


class Measured(NamedTuple):
    """The seconds of processor time and the peak memory in bytes of chc on one script, and the seconds of
    z3 where it is installed."""

    seconds: float
    peak: int
    theirs: Optional[float]


class Ran(NamedTuple):
    """One run: seconds of processor time and by the clock, the peak memory in bytes, status and output; and which
    limit ended it, `processor time` or `the clock`, if one did."""

    seconds: float
    clock: float
    peak: int
    status: int
    output: bytes
    limit: Optional[str] = None


def run(words, path, seconds=None):
    """Runs these words on the script, with at most the given number of seconds of processor time."""
    with open(path, "rb") as script:
        return run_on(words, script, seconds)


def run_on(words, script, seconds=None, clock=None):
    """Runs these words on an open file. A run past its seconds is ended by a signal: of processor time by 24 (or by 9
    a second later), by the clock by 9. Several threads may do so at once."""
    late = threading.Event()

    def end(number):
        late.set()
        os.kill(number, signal.SIGKILL)

    with tempfile.TemporaryFile() as out:
        begun = time.perf_counter()
        child = subprocess.Popen(words, stdin=script, stdout=out)
        running.add(child.pid)
        if ending.is_set():
            os.kill(child.pid, signal.SIGKILL)
        if seconds:
            # At its limit a process is ended by a signal that nothing else sends, and that would write its memory to a file.
            resource.prlimit(child.pid, resource.RLIMIT_CORE, (0, 0))
            resource.prlimit(child.pid, resource.RLIMIT_CPU, (seconds, seconds + 1))
        timer = threading.Timer(clock, end, [child.pid]) if clock else None
        if timer:
            timer.start()
        # The process is only waited for where no timer can end another one of its number any more.
        os.waitid(os.P_PID, child.pid, os.WEXITED | os.WNOWAIT)
        if timer:
            timer.cancel()
            timer.join()
        running.discard(child.pid)
        _, status, usage = os.wait4(child.pid, 0)
        lasted = time.perf_counter() - begun
        child.returncode = os.waitstatus_to_exitcode(status)
        used = usage.ru_utime + usage.ru_stime
        limit = None
        if child.returncode in TIMED_OUT:
            limit = "processor time" if child.returncode == -24 or (seconds and used > seconds) else "the clock" if late.is_set() else None
        out.seek(0)
        return Ran(used, lasted, usage.ru_maxrss * 1024, child.returncode, out.read(), limit)


def end_all():
    """Ends what runs, and whatever begins from now on."""
    ending.set()
    for number in list(running):
        with contextlib.suppress(ProcessLookupError):
            os.kill(number, signal.SIGKILL)


def answer_of(ran):
    """The first word of what was written, or how the run ended."""
    if ran.status in TIMED_OUT:
        return "time"
    first = ran.output.split(b"\n", 1)[0].decode("utf-8", "replace")
    return first.split(" ")[0] if first in ("sat", "unsat", "unknown") else f"status {ran.status}"


def parts_of(output):
    """How many steps an answer has, or else how many definitions, and which of the two."""
    steps, definitions = output.count(b"\n(step "), output.count(b"\n(define-fun ")
    return (steps, "steps") if steps else (definitions, "definitions")


def told_by(script):
    """The answer that a script tells of itself, if it tells one."""
    told = TOLD.search(script)
    return (told[1] or told[2]).decode() if told else None


def checked(program, script, answer, seconds=None, clock=None, words=()):
    """The run of `check` on this answer to the script, both as bytes."""
    with tempfile.TemporaryFile() as given:
        given.write(script + MARKER + answer)
        given.seek(0)
        return run_on([*launched(program), "check", *words], given, seconds, clock)


def trees(text):
    """The trees of a text up to its first fault: atoms are texts, and lists are lists."""
    stack = [[]]
    for token in TOKEN.findall(text):
        if token == "(":
            stack.append([])
        elif token == ")" and len(stack) == 1:
            break
        elif token == ")":
            done = stack.pop()
            stack[-1].append(done)
        elif not token.isspace() and not token.startswith(";"):
            stack[-1].append(token)
    return stack[0]


def shown(tree):
    """A tree as text, however deep it is. Divisibility is told by a remainder, since not every solver has the former."""
    pieces, left = [], [tree]
    while left:
        it = left.pop()
        if isinstance(it, str):
            pieces.append(it)
        elif len(it) == 2 and isinstance(it[0], list) and it[0][:2] == ["_", "divisible"]:
            left += [f" {it[0][2]}) 0)", it[1], "(= (mod "]
        else:
            left.append(")")
            for number, part in enumerate(reversed(it)):
                left += [" ", part] if number else [part]
            left.append("(")
    return "".join(pieces)


def commands_of(text):
    """The commands of a script up to its exit: the declarations as texts, and the asserted terms as trees."""
    commands = trees(text)
    if ["exit"] in commands:
        commands = commands[: commands.index(["exit"])]
    declared = [shown(it) for it in commands if it[0] in ("declare-fun", "declare-const")]
    return declared, [it[1] for it in commands if it[0] == "assert"]


def chc_program():
    """The program that CHC names, or the one that `./install` put beside this, or else the one that the launcher
    builds, built where it is missing."""
    if "CHC" in os.environ:
        return os.path.abspath(os.environ["CHC"])
    if os.path.exists(os.path.join(TOP, "program")):
        return os.path.join(TOP, "program")
    subprocess.run([os.path.join(TOP, "chc"), "solve"], stdin=subprocess.DEVNULL, stdout=subprocess.DEVNULL)
    return os.path.join(TOP, "crates", "chc", "out", "chc")


def launched(program):
    """The words that start a program of chc as the launcher does, with what that tells the C library."""
    with open(os.path.join(TOP, "chc"), encoding="utf-8") as launcher:
        tunables = re.search(r"^ *tunables=(\S+)$", launcher.read(), re.MULTILINE)[1]
    return ["env", f"GLIBC_TUNABLES={tunables}", program]


def measure(name, words, path, runs):
    """The least seconds and the greatest peak of some runs, each of which must answer sat."""
    results = [run(words, path) for _ in range(runs)]
    for result in results:
        if result.status != 0 or result.output.split(b"\n", 1)[0] != b"sat":
            sys.exit(f"{name} ended with status {result.status} and {result.output[:200]!r}")
    seconds = min(result.seconds for result in results)
    clock = min(result.clock for result in results)
    peak = max(result.peak for result in results)
    print(f"{name:4} {seconds:9.3f} s {peak / 2**20:9.1f} MiB ({clock:.3f} s by the clock)")
    return seconds, peak


def compare(path, runs):
    """Measures chc some times and then z3 as often, where it is installed."""
    ours, peak = measure("chc", [*launched(chc_program()), "solve"], path, runs)
    if shutil.which("z3") is None:
        print("z3 is not installed, so there is no ratio")
        return Measured(ours, peak, None)
    theirs, _ = measure("z3", ["z3", "-in"], path, runs)
    print(f"chc takes 1/{theirs / ours:.1f} of the time of z3")
    return Measured(ours, peak, theirs)


def judge(half, whole, part, most_bytes=None):
    """Fails where chc takes more than this part of the time of z3 on the whole script, more than 2.5
    times as long as on half of it, or more memory than this."""
    faults = []
    growth = whole.seconds / half.seconds
    print(f"twice the script takes {growth:.2f} times as long")
    if growth > 2.5:
        faults.append("time does not grow with the script alone")
    if whole.theirs is not None and whole.seconds > part * whole.theirs:
        faults.append(f"chc takes more than {part:.2f} of the time of z3")
    if most_bytes is not None and whole.peak > most_bytes:
        faults.append(f"chc takes more than {most_bytes / 2**20:.0f} MiB")
    if faults:
        sys.exit("; ".join(faults))
