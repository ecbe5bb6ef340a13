#!/usr/bin/env python3
"""Prints the definitions on which the contracts of the top calls rest, file by file, those that others cite first.

A definition rests on every name in its text that stands in its file or is imported there, so nothing that it needs is
left out; what else stands in the file isn't counted. Types that are declared in Rust aren't followed.

Refuses a rule that cites machinery, a file that can't be taken apart, and a table in ARCHITECTURE.md, under 'What you must
believe', that isn't the one that is found here. Run it by hand; the proofs don't need it. With the word `table` it prints
that table, with the sentences that stand in ARCHITECTURE.md.
"""
import re
import sys
from pathlib import Path

TOP = Path(__file__).resolve().parents[1]
CRATES = TOP / "crates"
IMPORT = re.compile(r"^(?:pub |ghost )*use Rattle\.(\w+)\.specs\.([\w.]+?)\.\{(.*)\};?$")
HEAD = re.compile(r"^(?:(?:abbrev|unfoldable|pub) )*(?:(record|data) )?(\S+)(?= (?::|\())")
HEAD_OF_RECORD = re.compile(r"^pub (record|data) (\S+)")
WORD = re.compile(r"[^\s(){}\[\],;]+")
MOST_NAMES = 6


def place_of(crate, module):
    """The file of a module of definitions, and the definition in it whose parts the module holds, if it is one of a type."""
    path = CRATES / crate / "specs" / (module.replace(".", "/") + ".antt")
    if path.is_file():
        return path, None
    outer, _, last = module.rpartition(".")
    path = CRATES / crate / "specs" / (outer.replace(".", "/") + ".antt")
    return (path, last) if outer and path.is_file() else (None, None)


def imports_of(text):
    """The names that a file imports from definitions of this repository, each with where it stands."""
    found = {}
    for line in text.splitlines():
        match = IMPORT.match(line)
        if not match:
            continue
        path, inside = place_of(match[1], match[2])
        for item in filter(None, (item.strip() for item in match[3].split(","))):
            name, _, other = item.partition(" as ")
            if path:
                found[other or name] = (path, inside or name)
    return found


class File:
    """A file of definitions, taken apart: the text of each, in order, and the names that stand for it."""

    files = {}

    def __init__(self, path):
        self.path, self.texts, self.names = path, {}, {}
        text = path.read_text()
        self.imports = imports_of(text)
        current, kind, together = None, None, None
        for line in text.splitlines():
            if re.fullmatch(r"(abbrev |unfoldable )?mutual", line):
                together = line
                continue
            if together and line.startswith("  "):
                line = line[2:]
            elif line.strip():
                together = None
            if not line.strip() or line.lstrip().startswith("--") or re.match(r"(pub )?(use|mod) |infix", line):
                continue
            if re.match(r"(abbrev|unfoldable|pub) ", line):
                match = HEAD_OF_RECORD.match(line) or HEAD.match(line)
                kind, current = match[1], match[2]
                self.texts[current], self.names[current] = line + "\n", current
            elif current is None or not (line[0] in " })" or line.split()[0] in (current, "unfolding") or "◌" in current):
                sys.exit(f"{path}: can't be taken apart at: {line}")
            else:
                self.texts[current] += line.partition(" -- ")[0] + "\n"
                part = re.match(r"\s+(?:pub )?([^\s:]+) :", line)
                if kind == "data" and part:
                    self.names.setdefault(part[1], current)

    @classmethod
    def at(cls, path):
        if path not in cls.files:
            cls.files[path] = cls(path)
        return cls.files[path]

    def find(self, name):
        """Where the definition of that name stands, which may be handed on from another file."""
        if name in self.names:
            return self.path, self.names[name]
        if name in self.imports:
            path, there = self.imports[name]
            return File.at(path).find(there)
        return sys.exit(f"{self.path}: has no {name}")

    def cited_by(self, name):
        """What that definition cites, in order."""
        words = set(WORD.findall(self.texts[name]))
        words |= {word.partition(".")[0] for word in words}

        def stands(other):
            return all(part in words for part in filter(None, other.split("◌")))

        found = [File.at(path).find(there) for other, (path, there) in self.imports.items() if stands(other)]
        found += [(self.path, own) for other, own in self.names.items() if own != name and stands(other)]
        return list(dict.fromkeys(found))


def closure(start):
    """Every definition reached from these, each behind those that it cites, but where definitions cite each other."""
    order, seen = [], set()

    def visit(place):
        if place in seen:
            return
        seen.add(place)
        for other in File.at(place[0]).cited_by(place[1]):
            visit(other)
        order.append(place)

    for place in start:
        visit(place)
    return order


def in_reading_order(places):
    """The files of these definitions, each behind those that it cites."""
    order, seen, kept = [], set(), {path for path, _ in places}

    def visit(path):
        if path in seen:
            return
        seen.add(path)
        for other, _ in File.at(path).imports.values():
            if other in kept:
                visit(other)
        order.append(path)

    for path, _ in places:
        visit(path)
    return order


def name_of(path):
    return f"{path.parts[-3]}/{path.stem}" if path.parent.name == "specs" else str(path.relative_to(CRATES))


def share_of(path, names):
    """Which of a file's definitions are meant: all of them, or which."""
    every = list(File.at(path).texts)
    if len(names) == len(every):
        return f"all {len(every)}" if len(every) > 1 else "all"
    if len(names) > MOST_NAMES:
        return f"{len(names)} of {len(every)}"
    return f"of {len(every)}: " + ", ".join(f"`{name}`" for name in every if name in names)


def cited_machinery():
    wrong = 0
    for path in sorted(CRATES.glob("*/specs/*.antt")):
        for target in dict.fromkeys(target for target, _ in File.at(path).imports.values()):
            if target.parent.name == "machinery":
                print(f"{name_of(path)} is a rule and cites {name_of(target)}", file=sys.stderr)
                wrong = 1
    return wrong


def main():
    wrong = cited_machinery()
    start = {}
    for file in ("run.rt", "program.rt"):
        start |= imports_of((CRATES / "chc_cli" / "src" / file).read_text())
    places = closure(dict.fromkeys(File.at(path).find(name) for path, name in start.values()))
    files = in_reading_order(places)
    rows = [(name_of(path), share_of(path, {name for other, name in places if other == path})) for path in files]
    lines = sum(File.at(path).texts[name].count("\n") for path, name in places)
    text = (TOP / "docs" / "ARCHITECTURE.md").read_text()
    part = text.partition("## What you must believe")[2].partition("\n## ")[0]
    listed = re.findall(r"^\| `(\w+/\w+)` \| (.*?) \| (.*) \|$", part, re.M)
    says = {name: said for name, _, said in listed}
    for name, share in rows:
        print(f"| `{name}` | {share} | {says.get(name, '')} |" if sys.argv[1:] == ["table"] else f"{name}: {share}")
    print(f"{len(places)} definitions in {len(rows)} of {len(list(CRATES.glob('*/specs/**/*.antt')))} files, {lines} lines", file=sys.stderr)
    if any("machinery" in path.parts for path in files):
        print("a contract of the top calls rests on machinery", file=sys.stderr)
        wrong = 1
    if [(name, share) for name, share, _ in listed] != rows:
        print("ARCHITECTURE.md lists others, or in another order", file=sys.stderr)
        wrong = 1
    return wrong


sys.exit(main())
