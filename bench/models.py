#!/usr/bin/env python3
"""Sees that `chc check` says of z3's own models what is to be said of them.

The folder `models` has small scripts, and answers to them that z3 made: what it prints for a script and
`(get-model)`, which is in the form of answers as it stands. The first line of an answer names the script, the
options of z3, and the other script of which the model is, where it is of another one; the second says what is
to be said of it:

- `; valid`;
- `; wrong at byte of TEXT`: the byte at which this text stands in the answer, for the first time;
- `; wrong at assertion N at (VALUES)`: an instance;
- `; not shown at assertion N`.

Prints a row for each answer. Where z3 is installed it is asked as well: under `valid` it must find every
assertion true, under an instance the assertion false there and those before it true, and under the other
two, where the answer is a model all the same, every assertion true. `--make` makes the answers anew, for
another z3. Fails where anything else is said."""

import argparse
import glob
import os
import re
import shutil
import subprocess
import sys

from check import Script, items, together
from measure import MARKER, TOP, checked, chc_program, shown, trees

FOLDER = os.path.join(TOP, "bench", "models")
MADE = re.compile(r"; (\S+\.smt2), z3((?: \S+=\S+)*)(?: on (\S+\.smt2))?")
STATUS = {"valid": 0, "wrong": 6, "not shown": 7}
# The line that `check` prints for what is to be said, without the byte.
FORM = re.compile(r"; (?:(valid)|(wrong) at (?:byte of (.+)|(assertion \d+ at \(.*\)))|(not shown) at (assertion \d+))")


class Answer:
    """An answer of the folder: its script, how it was made, and what is to be said of it."""

    def __init__(self, path):
        self.path, self.name = path, os.path.basename(path).removesuffix(".answer")
        with open(path, encoding="utf-8") as file:
            self.text = file.read()
        made, said, self.model = self.text.split("\n", 2)
        self.heads = f"{made}\n{said}\n"
        self.script, self.options, other = MADE.fullmatch(made).groups()
        self.said = FORM.fullmatch(said)
        self.source = os.path.join(FOLDER, other or self.script)
        self.script = os.path.join(FOLDER, self.script)

    def wanted(self, script):
        """The text that `check` is to print."""
        valid, wrong, text, instance, not_shown, place = self.said.groups()
        if valid:
            return "valid\n"
        if text:
            before = self.heads + self.model.partition(text)[0]
            place = f"byte {len((script + MARKER.decode() + before).encode())}"
        return f"{wrong or not_shown}\n; {place or instance}\n"

    def agrees(self, script):
        """Whether z3 finds the same: True, False, or None where it can't tell or isn't there."""
        definitions = [shown(it) for it in trees(self.model)[1]]
        numbers = range(1, len(script.asserted) + 1)
        if self.said[4]:
            at, values = re.fullmatch(r"assertion (\d+) at \((.*)\)", self.said[4]).groups()
            found = [script.is_true(definitions, it) for it in range(1, int(at))]
            return together([*found, script.is_false_at(definitions, int(at), items(values))])
        return together([script.is_true(definitions, it) for it in numbers])

    def make(self, solver):
        """Asks z3 for the model and writes the answer anew."""
        with open(self.source, encoding="utf-8") as file:
            text = file.read() + "(get-model)\n"
        ran = subprocess.run([solver, "fp.engine=spacer", *self.options.split(), "-in", "-T:10"], input=text, capture_output=True, text=True)
        if not ran.stdout.startswith("sat\n"):
            sys.exit(f"{self.name}: z3 says {ran.stdout[:100]!r}")
        with open(self.path, "w", encoding="utf-8") as file:
            file.write(self.heads + ran.stdout)


def try_answer(program, solver, answer):
    """Has one answer checked, prints the row, and returns whether all is right."""
    script = Script(answer.script, solver)
    ran = checked(program, script.text.encode(), answer.text.encode(), 20)
    wanted = answer.wanted(script.text)
    said = ran.output.decode()
    is_said = said == wanted and ran.status == STATUS[said.split("\n")[0]]
    agrees = answer.agrees(script)
    theirs = {True: "z3 agrees", False: "z3 doesn't agree", None: "z3 doesn't tell"}[agrees]
    print(f"{answer.name:16} {ran.seconds:6.2f} s  {said.strip().replace(chr(10) + ';', ',')}; {theirs}")
    if not is_said:
        print(f"    status {ran.status}, and {wanted!r} was to be said")
    return is_said and agrees is not False


def main():
    words = argparse.ArgumentParser(description=__doc__, formatter_class=argparse.RawDescriptionHelpFormatter)
    words.add_argument("--make", action="store_true", help="have z3 make the answers anew, and check nothing")
    words = words.parse_args()
    solver = shutil.which("z3")
    answers = [Answer(it) for it in sorted(glob.glob(os.path.join(FOLDER, "*.answer")))]
    if words.make:
        for answer in answers:
            answer.make(solver)
        return
    program = chc_program()
    wrong = sum(not try_answer(program, solver, it) for it in answers)
    print(f"{len(answers)} answers, {wrong} not judged as they are to be")
    if wrong:
        sys.exit(1)


if __name__ == "__main__":
    main()
