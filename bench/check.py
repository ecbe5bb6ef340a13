#!/usr/bin/env python3
"""Solves every script of a folder, and sees that `chc check` finds the printed answers right and spoilt
ones wrong.

Prints a row for each script: the answer, how many steps or definitions it has, and the seconds of processor
time of `solve` and of `check`. Each printed answer must be valid, and the check of definitions may take no
longer than the search for them, times below 0.05 s counted as that.

Then each answer is spoilt some times (`--spoilt`), one number moved by one or one premise made another, as a
seeded generator chooses. What `check` says of it is held to this:

- of a derivation, `wrong` at the very step that was spoilt, since those before it are as they were, where z3
  doesn't find that it follows all the same (such a one is looked at by hand: it may conclude what a premise
  does, and premises have their order);
- of definitions, `wrong` at an assertion that z3 finds false under them, at the values that are told, and
  none before it;
- `valid`, where z3 finds the spoilt step and those that rest on it, or all assertions, true;
- `wrong` at a byte of the spoilt line, where its text is no answer: a number that is none there, or is too
  large;
- `not shown`, which claims nothing and is counted.

Without z3 what needs it is counted as not looked at. Fails at a printed answer that isn't valid, at a check of
definitions that takes longer than the search, at anything else said of a spoilt answer, or where the answers
of fewer scripts are spoilt than `--least` says."""

import argparse
import os
import random
import re
import shutil
import subprocess
import sys

from measure import MARKER, TIMED_OUT, chc_program, checked, commands_of, launched, run, shown, trees

SHORTEST = 0.05
NUMBER = re.compile(r"\(- \d+\)|(?<![^\s()])\d+(?![^\s()])")
STEP = re.compile(r"\(step (\d+) (\d+) \((.*?)\) \(([\d ]*)\) (.*)\)")
WRONG = re.compile(r"wrong\n; (?:step (\d+)|assertion (\d+) at \((.*)\)|byte (\d+))\n")


def items(text):
    """The values that stand in a list, each as text."""
    return [shown(it) for it in trees(text)]


def instance(assertion, values):
    """The assertion with these values for its variables, or itself where its quantifiers don't stand in front."""
    if assertion[0] == "forall" and len(assertion[1]) == len(values):
        bound = " ".join(f"({name} {value})" for (name, _), value in zip(assertion[1], values))
        return f"(let ({bound}) {shown(assertion[2])})"
    if assertion[0] == "not" and assertion[1][0] == "exists" and len(assertion[1][1]) == len(values):
        return f"(not {instance(['forall', *assertion[1][1:]], values)})"
    return shown(assertion)


class Script:
    """A script's declarations and assertions, and what z3 says over them."""

    def __init__(self, path, solver):
        with open(path, encoding="utf-8") as file:
            self.text = file.read()
        self.declared, self.asserted = commands_of(self.text)
        self.solver = solver

    def is_sure(self, head, claims):
        """Whether z3 finds these claims to be contradictory; None where it can't tell or isn't there."""
        if not self.solver:
            return None
        text = "\n".join([*head, *(f"(assert {it})" for it in claims), "(check-sat)\n"])
        ran = subprocess.run([self.solver, "-in", "-T:5"], input=text, capture_output=True, text=True)
        said = ran.stdout.split("\n")[0]
        return {"unsat": True, "sat": False}.get(said)

    def is_true(self, definitions, number):
        """Whether the assertion of that number is true under the definitions."""
        return self.is_sure(definitions, [f"(not {shown(self.asserted[number - 1])})"])

    def is_false_at(self, definitions, number, values):
        """Whether the assertion is false under the definitions at these values."""
        return self.is_sure(definitions, [instance(self.asserted[number - 1], values)])

    def follows(self, steps, number):
        """Whether the conclusion of the step at this place follows from those of its premises by its assertion at
        its values; None where its numbers are none of steps before it or of assertions, too."""
        own, assertion, values, premises, head = STEP.fullmatch(steps[number - 1]).groups()
        premises = [int(it) for it in premises.split()]
        if int(own) != number or not 0 < int(assertion) <= len(self.asserted) or not all(0 < it < number for it in premises):
            return None
        known = [STEP.fullmatch(steps[it - 1])[5] for it in premises]
        return self.is_sure(self.declared, [*known, instance(self.asserted[int(assertion) - 1], items(values)), f"(not {head})"])


def moved(text, chance):
    """The text with one of its numbers moved by one; None where it has none."""
    found = list(NUMBER.finditer(text))
    if not found:
        return None
    it = chance.choice(found)
    number = int(it[0].replace("(- ", "-").rstrip(")")) + chance.choice((-1, 1))
    return text[: it.start()] + (str(number) if number >= 0 else f"(- {-number})") + text[it.end() :]


def other_premise(line, chance):
    """The step with one premise made another of the steps before it; None where there is none."""
    number, assertion, values, premises, head = STEP.fullmatch(line).groups()
    premises = premises.split()
    others = [it for it in range(1, int(number))]
    if not premises or len(others) < 2:
        return None
    at = chance.randrange(len(premises))
    premises[at] = str(chance.choice([it for it in others if str(it) != premises[at]]))
    return f"(step {number} {assertion} ({values}) ({' '.join(premises)}) {head})"


def spoil(lines, chance):
    """The lines of an answer with one of them spoilt, and its number among them; None where that can't be."""
    at = chance.choice([number for number, it in enumerate(lines) if it.startswith(("(step ", "(define-fun "))])
    line = lines[at]
    if line.startswith("(step "):
        new = other_premise(line, chance) if chance.random() < 0.3 else moved(line, chance)
    else:
        # (the names of its parameters have numbers too, and may not be moved)
        head, middle, body = line.partition(") Bool ")
        new = moved(body, chance)
        new = new and head + middle + new
    return (at, [*lines[:at], new, *lines[at + 1 :]]) if new and new != line else None


def together(found):
    """False where one is False, else None where one is None, else True."""
    return False if False in found else None if None in found else True


def judge_steps(script, number, lines, said):
    """What is to be said of a derivation whose step of that number is spoilt: a word, and whether it is right."""
    wrong, steps = WRONG.fullmatch(said), [it for it in lines if it.startswith("(step ")]
    if said == "valid\n":
        others = [it + 1 for it, line in enumerate(steps) if str(number) in STEP.fullmatch(line)[4].split()]
        return "valid", together([script.follows(steps, it) for it in [number, *others]])
    if wrong and wrong[1]:
        return "step", int(wrong[1]) == number and (None if script.follows(steps, number) else True)
    return said.strip(), said.startswith("not shown\n")


def judge_definitions(script, definitions, said):
    """What is to be said of these definitions: a word, and whether it is right."""
    wrong = WRONG.fullmatch(said)
    definitions = [shown(it) for it in trees(" ".join(definitions))]
    if said == "valid\n":
        return "valid", together([script.is_true(definitions, it) for it in range(1, len(script.asserted) + 1)])
    if wrong and wrong[2]:
        number = int(wrong[2])
        found = [script.is_true(definitions, it) for it in range(1, number)]
        found.append(script.is_false_at(definitions, number, items(wrong[3])))
        return "instance", together(found)
    return said.strip(), said.startswith("not shown\n")


def judge(script, at, lines, said):
    """What is to be said of an answer of which this line is spoilt: a word, and whether it is right."""
    wrong = WRONG.fullmatch(said)
    if wrong and wrong[4]:
        begins = len(script.text.encode() + MARKER) + len("\n".join([*lines[:at], ""]).encode())
        return "byte", begins <= int(wrong[4]) < begins + len(lines[at].encode())
    if lines[0] == "unsat":
        return judge_steps(script, at - 1, lines, said)
    return judge_definitions(script, [it for it in lines if it.startswith("(define-fun ")], said)


class Tally:
    """What was found over all scripts."""

    def __init__(self):
        self.counts, self.faults, self.spoilt, self.seconds = {}, 0, set(), {}

    def add(self, word, is_right):
        """Counts what was said of a spoilt answer."""
        word = "not shown" if word.startswith("not shown") else word
        key = word if is_right else f"{word}, not looked at" if is_right is None else "not right"
        self.counts[key] = self.counts.get(key, 0) + 1

    def add_times(self, kind, solving, checking):
        ours = self.seconds.setdefault(kind, [0, 0, 0])
        self.seconds[kind] = [ours[0] + 1, ours[1] + solving, ours[2] + checking]

    def show(self):
        for kind, (number, solving, checking) in sorted(self.seconds.items()):
            ratio = f"{checking / solving:.3f}" if solving else "-"
            print(f"{number} {kind}: solved in {solving:.2f} s, checked in {checking:.2f} s, {ratio} times")
        found = ", ".join(f"{number} {what}" for what, number in sorted(self.counts.items())) or "none"
        print(f"spoilt answers of {len(self.spoilt)} scripts: {found}")


def try_spoilt(words, name, script, answer, tally):
    """Spoils an answer some times, counts what is said of it, and prints what isn't right or wasn't looked at."""
    chance = random.Random(f"{words.seed} {name}")
    lines = answer.split("\n")
    if not any(it.startswith(("(step ", "(define-fun ")) for it in lines):
        return
    for _ in range(words.spoilt):
        spoilt = spoil(lines, chance)
        if spoilt is None:
            continue
        at, new = spoilt
        ran = checked(words.program, script.text.encode(), "\n".join(new).encode(), words.seconds)
        said = "not shown\n" if ran.status in TIMED_OUT else ran.output.decode()
        word, is_right = judge(script, at, new, said)
        tally.add(word, is_right)
        tally.spoilt.add(name)
        if is_right is False or (is_right is None and words.tell):
            tally.faults += is_right is False
            print(f"{name}: {new[at]}\n    was {lines[at]}\n    and check says {said!r}")


def try_script(words, path, solver, tally):
    """Solves one script, has the answer checked and spoilt, and prints the row."""
    name = os.path.basename(path).removesuffix(".smt2")
    solved = run([*launched(words.program), "solve"], path, words.seconds)
    answer = solved.output.decode()
    kind = answer.split("\n", 1)[0]
    if solved.status != 0 or kind not in ("sat", "unsat"):
        print(f"{name:32} no answer to check")
        return
    script = Script(path, solver)
    ran = checked(words.program, script.text.encode(), answer.encode(), words.seconds)
    said = "time" if ran.status in TIMED_OUT else ran.output.decode().replace("\n", " ").strip()
    parts = answer.count("\n(step ") or answer.count("\n(define-fun ")
    is_slow = kind == "sat" and ran.seconds > max(solved.seconds, SHORTEST)
    print(f"{name:32} {kind:>6} {parts:>7} {solved.seconds:8.2f} {ran.seconds:8.2f}  {said}{', slow' * is_slow}", flush=True)
    tally.faults += (said != "valid") + is_slow
    tally.add_times(kind, solved.seconds, ran.seconds)
    try_spoilt(words, name, script, answer, tally)


def main():
    words = argparse.ArgumentParser(description=__doc__, formatter_class=argparse.RawDescriptionHelpFormatter)
    words.add_argument("folder", help="of scripts, files that end in .smt2")
    words.add_argument("--seconds", type=int, default=10, help="of processor time for each run")
    words.add_argument("--only", default="", help="scripts whose names have this")
    words.add_argument("--spoilt", type=int, default=5, help="times that each answer is spoilt")
    words.add_argument("--seed", type=int, default=1, help="of what is spoilt")
    words.add_argument("--least", type=int, default=0, help="scripts whose answers must be spoilt")
    words.add_argument("--tell", action="store_true", help="print the spoilt answers that weren't looked at, too")
    words = words.parse_args()
    words.program = chc_program()
    solver, tally = shutil.which("z3"), Tally()
    print(f"{'script':32} {'answer':>6} {'parts':>7} {'solve s':>8} {'check s':>8}  check")
    for name in sorted(it for it in os.listdir(words.folder) if it.endswith(".smt2") and words.only in it):
        try_script(words, os.path.join(words.folder, name), solver, tally)
    tally.show()
    if tally.faults:
        sys.exit(f"{tally.faults} not right")
    if len(tally.spoilt) < words.least:
        sys.exit(f"the answers of {words.least} scripts were to be spoilt")


if __name__ == "__main__":
    main()
