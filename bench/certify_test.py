#!/usr/bin/env python3
"""Tests `./certify`, and what `./install` writes, without a build: a stand-in program says what the tables here say.

A script's first line names its case. Of a case the table has what `solve` writes, what `check` says of it, and
the line that is to be told, with the status. It takes some seconds."""

import json
import os
import signal
import subprocess
import sys
import tempfile
import time
import unittest
from concurrent.futures import ThreadPoolExecutor

from measure import TOP

STAND_IN = r"""#!/bin/sh
read -r first
case=${first#; }
echo "$@" >>"$0.calls"
cat >"$0.$$"
said="$0.table/$case.$1"
# a check judges the answer that solve gave, and no other one
if [ "$1" = check ] && ! sed '1,/^;;answer$/d' "$0.$$" | cmp -s - "$0.table/$case.solve"; then
    printf 'wrong\n; byte 0\n'
    exit 6
fi
cat "$said"
read -r status <"$said.status"
case $status in
hangs) exec sleep 60 ;;
turns) while :; do :; done ;;
dies) kill -SEGV $$ ;;
esac
exit "$status"
"""
DECLARED = "(set-logic HORN)(declare-fun p (Int) Bool)(assert (p 0))"
ASSERTED = DECLARED + "(assert (forall ((x Int)) (=> (and (p x) ((_ divisible 2) x)) (p (+ x 2)))))(check-sat)"
MODEL = "sat\n(\n(define-fun p ((x0 Int)) Bool ((_ divisible 2) x0))\n)\n"
STEPS = "unsat\n(derivation\n(step 1 1 () () (p 0))\n(step 2 2 () (1) false)\n)\n"
VALID = ["valid\n", 0]
ERROR = '(error "kind 16 NotHorn at byte 280 after 5 commands")\n'
# What a script is, what solve writes and ends with, what check says, the line that is told, and the status.
CASES = {
    "sat": (ASSERTED, [MODEL, 0], VALID, r"sat, 1 definition, 60 bytes, [\d.]+ s: valid", 0),
    "unsat": (DECLARED, [STEPS, 0], VALID, r"unsat, 2 steps, 67 bytes, [\d.]+ s: valid", 0),
    "spent": (DECLARED, ["unknown\n; level 4 units 100\n", 0], VALID, r"unknown, level 4, units 100, [\d.]+ s", 7),
    "stalled": (DECLARED, ["unknown\n; level 7 stalled\n", 0], VALID, r"unknown, level 7, stalled, [\d.]+ s", 7),
    "memory": (DECLARED, ["unknown\n; level 2 memory\n", 5], VALID, r"unknown, level 2, memory, [\d.]+ s", 7),
    "no room": (DECLARED, ['(error "out of memory")\n', 5], VALID, "out of memory", 7),
    "refused": (DECLARED, [ERROR, 1], VALID, r'refused: \(error "kind 16 NotHorn at byte 280 after 5 commands"\)', 1),
    "wrong": (DECLARED, [MODEL, 0], ["wrong\n; assertion 2 at (9)\n", 6], r"sat, .*: wrong \(assertion 2 at \(9\)\)", 6),
    "not shown": (DECLARED, [MODEL, 0], ["not shown\n; assertion 1\n", 7], r"sat, .*: not shown \(assertion 1\)", 7),
    "told right": ("(set-info :status sat)" + ASSERTED, [MODEL, 0], VALID, "sat, .*: valid", 0),
    "told wrong": ("(set-info :status unsat)" + ASSERTED, [MODEL, 0], VALID, r"sat, .*: wrong \(the script says unsat, and check says valid\)", 6),
    "a comment tells nothing": ("; (set-info :status unsat)\n" + ASSERTED, [MODEL, 0], VALID, "sat, .*: valid", 0),
    "told by a comment": ("; expect: sat\n" + DECLARED, [STEPS, 0], VALID, r"unsat, .*: wrong \(the script says sat, .*\)", 6),
    "told and unknown": ("(set-info :status sat)", ["unknown\n; level 1 units 1\n", 0], VALID, "unknown, level 1, units 1, .*", 7),
    "hangs": (DECLARED, ["", "hangs"], VALID, r"time-out after [\d.]+ s \(the clock\)", 124),
    "hangs with a level": (DECLARED, ["unknown\n; level 3 stalled\n", "hangs"], VALID, r"time-out after [\d.]+ s \(the clock\), level 3", 124),
    "turns": (DECLARED, ["", "turns"], VALID, r"time-out after [\d.]+ s \(processor time\)", 124),
    "turns with a level": (DECLARED, ["unknown\n; level 3 stalled\n", "turns"], VALID, r"time-out after [\d.]+ s \(processor time\), level 3", 124),
    "check hangs": (DECLARED, [MODEL, 0], ["", "hangs"], r"sat, .*: not checked \(time-out after [\d.]+ s \(the clock\)\)", 124),
    "check fails": (DECLARED, [MODEL, 0], ["", 5], r"sat, .*: not checked \(out of memory\)", 7),
    "check refuses": (DECLARED, [MODEL, 0], [ERROR, 1], r"sat, .*: not checked \(refused: .*\)", 7),
    "half, and dies": (DECLARED, ["sat\n(\n(define", "dies"], VALID, "ended by signal 11", 7),
    "half, and ends": (DECLARED, ["sat\n(\n(define", 4], VALID, "ended with status 4 and no answer", 7),
    "half, as refused": (DECLARED, ["sat\n(\n(define", 1], VALID, "ended with status 1 and no answer", 7),
    "says nothing": (DECLARED, ["", 0], VALID, "ended with status 0 and no answer", 7),
    "has a marker": ("a\n;;answer\nb", [MODEL, 0], VALID, "left out: it has a line ;;answer, .*", 7),
    "has a marker and a return": ("a\n;;answer\r\nb", [MODEL, 0], VALID, "left out: it has a line ;;answer, .*", 7),
    "has no marker": ("a ;;answer\nb", [MODEL, 0], VALID, "sat, .*: valid", 0),
}
# A solver that says this of each assertion that it is asked about, or that it can't read one.
SOLVER = """#!/bin/sh
grep -q 'define-fun p' "$1" || exit 1
number=0
for said in {}; do
    case $said in
    early) echo '(error "line 1")' && continue ;;
    esac
    number=$((number + 1))
    echo "$number"
    if [ "$said" = error ]; then
        echo '(error "line 2")'
        said=sat
    fi
    echo "$said"
done
"""


class Certify(unittest.TestCase):
    def setUp(self):
        folder = tempfile.TemporaryDirectory()
        self.addCleanup(folder.cleanup)
        self.folder = folder.name
        self.program, self.calls = self.write("program", STAND_IN, True), self.path("program.calls")
        for name, (_, solve, check, _, _) in CASES.items():
            for word, (said, status) in (("solve", solve), ("check", check)):
                self.write(f"program.table/{name}.{word}", said)
                self.write(f"program.table/{name}.{word}.status", f"{status}\n")

    def path(self, *names):
        return os.path.join(self.folder, *names)

    def write(self, name, text, is_program=False):
        os.makedirs(os.path.dirname(self.path(name)), exist_ok=True)
        with open(self.path(name), "w", encoding="utf-8") as file:
            file.write(text)
        if is_program:
            os.chmod(self.path(name), 0o755)
        return self.path(name)

    def script(self, case, name=None):
        return self.write(name or f"{case}.smt2", f"; {case}\n{CASES[case][0]}\n")

    def call(self, *words, at=None):
        command = [at or os.path.join(TOP, "certify"), *words]
        environment = {**os.environ, "CHC": self.program}
        return subprocess.run(command, env=environment, stdin=subprocess.DEVNULL, capture_output=True, text=True, timeout=50)

    def sees(self, ran, status, out=None, err=None):
        self.assertEqual(ran.returncode, status, ran.stdout + ran.stderr)
        if out is not None:
            self.assertRegex(ran.stdout, rf"\A{out}\Z")
        if err is not None:
            self.assertRegex(ran.stderr, err)

    def test_each_case_has_its_line_and_its_status(self):
        limits = lambda case: ["--clock", "5"] if "hangs" in case else ["--seconds", "1"] if "turns" in case else []
        with ThreadPoolExecutor(8) as pool:
            runs = pool.map(lambda case: self.call(self.script(case), *limits(case)), CASES)
            for (case, (_, _, _, line, status)), ran in zip(CASES.items(), runs):
                with self.subTest(case):
                    self.sees(ran, status, f".*{case}.smt2: {line}\n")

    def test_of_several_the_worst_counts(self):
        awaited = {
            ("sat", "unsat"): 0,
            ("sat", "turns"): 124,
            ("turns", "spent"): 7,
            ("not shown", "refused"): 1,
            ("refused", "wrong", "turns"): 6,
        }
        with ThreadPoolExecutor(5) as pool:
            runs = pool.map(lambda cases: self.call("--seconds", "1", "--jobs", "3", *map(self.script, cases)), awaited)
            for (cases, status), ran in zip(awaited.items(), runs):
                with self.subTest(cases):
                    self.sees(ran, status)

    def test_a_folder_is_gone_through_in_order_and_summed_up(self):
        for number, case in enumerate(("sat", "unsat", "spent", "told wrong")):
            self.script(case, f"scripts/{'below/' * (number % 2)}{number}.smt2")
        self.write("scripts/notes.txt", "no script")
        ran = self.call("--jobs", "4", self.path("scripts"))
        self.sees(ran, 6)
        lines = ran.stdout.split("\n")
        self.assertEqual([line.split("scripts/")[1].split(":")[0] for line in lines[:4]], ["0.smt2", "2.smt2", "below/1.smt2", "below/3.smt2"])
        self.assertRegex(lines[4], r"^4 scripts: 2 sat, 1 unsat, 1 unknown, 0 not answered; 2 valid; .* by the clock$")
        self.assertEqual([line.split(":")[0] for line in lines[5:7]], ["not valid"] * 2)

    def test_limits_are_handed_on(self):
        self.sees(self.call("--workers", "2", "--units", "0", "--nodes", "9", self.script("sat")), 0)
        with open(self.calls, encoding="utf-8") as calls:
            self.assertEqual(calls.read(), "solve --workers 2 --units 0 --nodes 9\ncheck --nodes 9\n")

    def test_answers_are_kept_whole(self):
        scripts = [self.script(it, f"in/{it}.smt2") for it in ("sat", "spent", "refused", "half, and dies")]
        self.sees(self.call("--out", self.path("kept"), self.path("in"), self.path("in", "sat.smt2")), 2, "", "two scripts")
        self.sees(self.call("--out", self.path("kept"), *scripts), 1)
        self.assertEqual(sorted(os.listdir(self.path("kept"))), ["sat.answer", "spent.answer"])
        with open(self.path("kept", "sat.answer"), encoding="utf-8") as kept:
            self.assertEqual(kept.read(), MODEL)
        self.script("turns", "in/sat.smt2")
        self.sees(self.call("--out", self.path("kept"), "--seconds", "1", scripts[0]), 124)
        self.assertEqual(os.listdir(self.path("kept")), ["spent.answer"])
        self.write("file", "no folder")
        self.sees(self.call("--out", self.path("file"), scripts[0]), 2, "", "file")

    def test_quiet_prints_first_lines_alone(self):
        scripts = [self.script(it) for it in ("sat", "unsat", "spent", "refused", "turns", "wrong")]
        ran = self.call("--quiet", "--seconds", "1", *scripts)
        self.sees(ran, 6, None, r"turns.smt2: time-out after .*\n.*wrong.smt2: sat, .*: wrong")
        self.assertEqual(ran.stdout, "sat\nunsat\nunknown\n" + ERROR + "sat\n")

    def test_json_has_an_object_a_script(self):
        scripts = [self.script(it) for it in ("sat", "unsat", "spent", "wrong", "turns with a level", "has a marker")]
        ran = self.call("--json", "--seconds", "1", *scripts)
        self.sees(ran, 6, None, "^6 scripts: 2 sat, 1 unsat, 1 unknown, 2 not answered; 2 valid; ")
        sat, unsat, spent, wrong, turns, marker = map(json.loads, ran.stdout.splitlines())
        self.assertEqual((sat["answer"], sat["verdict"], sat["definitions"], sat["bytes"]), ("sat", "valid", 1, 60))
        self.assertEqual((unsat["answer"], unsat["steps"]), ("unsat", 2))
        self.assertEqual((spent["answer"], spent["verdict"], spent["level"], spent["cause"]), ("unknown", None, 4, "units"))
        self.assertEqual((wrong["verdict"], wrong["cause"]), ("wrong", "assertion 2 at (9)"))
        self.assertEqual((turns["answer"], turns["level"]), (None, 3))
        self.assertEqual((marker["answer"], marker["cause"].split(":")[0]), (None, "left out"))
        for it in (sat, unsat, spent, wrong, turns, marker):
            self.assertLessEqual({"script", "answer", "verdict", "level", "cause", "seconds", "bytes"}, set(it))
            self.assertIsInstance(it["seconds"], float)

    def test_a_model_is_written_for_other_solvers(self):
        ran = self.call("--smt2", self.script("sat"))
        self.sees(ran, 0, None, "sat, 1 definition")
        for text in (
            "(define-fun p ((x0 Int)) Bool (= (mod x0 2) 0))",
            "(assert (not (and true\n  (p 0)\n  (forall ((x Int)) (=> (and (p x) (= (mod x 2) 0)) (p (+ x 2))))\n)))\n(check-sat)",
        ):
            self.assertIn(text, ran.stdout)
        self.assertNotIn("declare-fun", ran.stdout)
        self.sees(self.call("--smt2", "--out", self.path("kept"), self.script("sat"), self.script("unsat")), 0)
        self.assertEqual(sorted(os.listdir(self.path("kept"))), ["sat.answer", "sat.smt2", "unsat.answer"])

    def test_another_solver_is_asked(self):
        for said, line, status in (
            ("unsat unsat", "other finds 2 of 2 assertions true", 0),
            ("unsat unknown", "other finds 1 of 2 assertions true, and can't tell of 1", 0),
            ("unsat", "other finds 1 of 2 assertions true, and can't tell of 1", 0),
            ("unsat sat", "other finds assertion 2 false", 6),
            ("error unsat", "other finds 1 of 2 assertions true, and can't tell of 1", 0),
            ("early unsat sat", "other finds 0 of 2 assertions true, and can't tell of 2", 0),
        ):
            other = self.write("other", SOLVER.format(said), True)
            with self.subTest(said):
                self.sees(self.call("--against", other, self.script("sat")), status, f".*: valid; {line}\n")
        self.sees(self.call("--against", self.path("none"), self.script("sat")), 2, "", "there is no program")

    def test_deep_terms_are_written(self):
        script = self.write("deep.smt2", "; sat\n(assert " + "(not " * 1990 + "(p 0)" + ")" * 1991)
        ran = self.call("--smt2", script)
        self.sees(ran, 0)
        self.assertIn("(not " * 1990, ran.stdout)

    def test_other_words_are_usage(self):
        script = self.script("sat")
        for words in ([], ["--jobs", "0", script], ["--units", "x", script], ["--quiet", "--json", script], [self.path("none")], [self.path("empty")]):
            os.makedirs(self.path("empty"), exist_ok=True)
            with self.subTest(words):
                self.sees(self.call(*words), 2, "", "usage: certify")
        self.sees(self.call("--help"), 0, r"[\s\S]*The status is the first of these[\s\S]*")
        self.sees(self.call("--version"), 0, "certify of commit .*, kit .*\n")

    def test_no_program_is_status_125(self):
        self.program = self.path("none")
        self.sees(self.call(self.script("sat")), 125, "", "there is no program")

    def test_who_is_interrupted_leaves_nothing_behind(self):
        scripts = [self.script("hangs", f"{number}.smt2") for number in range(3)]
        command = [os.path.join(TOP, "certify"), "--jobs", "2", "--out", self.path("kept"), *scripts]
        child = subprocess.Popen(command, env={**os.environ, "CHC": self.program}, stdout=subprocess.PIPE, text=True)
        while not os.path.exists(self.calls):
            time.sleep(0.05)
        child.send_signal(signal.SIGTERM)
        self.assertEqual(child.communicate(timeout=20)[0], "")
        self.assertEqual(child.returncode, 130)
        self.assertFalse(os.path.exists(self.path("kept")))

    def install(self, *words):
        command = [os.path.join(TOP, "install"), self.path("prefix"), *words]
        return subprocess.run(command, env={**os.environ, "CHC": self.program}, capture_output=True, text=True, timeout=50)

    def test_what_is_installed_needs_no_checkout_and_goes_again(self):
        os.makedirs(self.path("prefix", "bin"))
        self.write("prefix/bin/other", "not ours")
        ran = self.install()
        self.sees(ran, 0)
        written = {os.path.join(place, it) for place, _, names in os.walk(self.path("prefix")) for it in names}
        self.assertEqual(set(ran.stdout.split()), written - {self.path("prefix/bin/other")})
        # the stand-in finds its table beside the place from which it is started
        os.rename(self.path("program.table"), self.path("prefix/lib/chc/program.table"))
        script, chc = self.script("unsat"), self.path("prefix/bin/chc")
        os.unlink(self.program)
        environment = {name: value for name, value in os.environ.items() if name != "CHC"}
        with open(script, encoding="utf-8") as file:
            ran = subprocess.run([chc, "solve"], stdin=file, env=environment, capture_output=True, text=True)
        self.sees(ran, 0)
        self.assertEqual(ran.stdout, STEPS)
        ran = subprocess.run([self.path("prefix/bin/certify"), script], env=environment, capture_output=True, text=True)
        self.sees(ran, 0, ".*: unsat, 2 steps, .*: valid\n")
        with open(self.path("prefix/share/man/man1/chc.1"), encoding="utf-8") as page:
            self.assertIn(".TH CHC 1", page.read())
        for name in os.listdir(self.path("prefix/lib/chc")):
            if name.startswith("program."):
                os.rename(self.path("prefix/lib/chc", name), self.path(name))
        ran = subprocess.run([os.path.join(TOP, "install"), "--remove", self.path("prefix")], capture_output=True, text=True)
        self.sees(ran, 0)
        self.assertEqual([it for it in os.walk(self.path("prefix"))], [(self.path("prefix"), ["bin"], []), (self.path("prefix/bin"), [], ["other"])])
        self.sees(self.install("--remove"), 1, "", "nothing was put")

    def test_a_folder_that_was_made_goes_again(self):
        self.sees(self.install(), 0)
        self.sees(self.install(), 0)
        self.sees(self.install("--remove"), 0, "(?:removed .*\n)*")
        self.assertFalse(os.path.exists(self.path("prefix")))

    def test_nothing_is_written_over(self):
        self.write("prefix/bin/chc", "another one")
        self.sees(self.install(), 1, "", "is there already")
        self.assertEqual(os.listdir(self.path("prefix")), ["bin"])


if __name__ == "__main__":
    sys.exit(unittest.main(verbosity=1))
