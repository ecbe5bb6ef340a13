#!/usr/bin/env python3
"""Prints a page of this folder as a manual page, for `man`: docs/manual.py docs/CALLS.md > chc.1

What it knows are headings, paragraphs, blocks of code, lists and tables, of which the first column is what the
others tell of, and in a line code, strong words and links. Anything else stays as it stands."""

import os
import re
import subprocess
import sys

CODE = re.compile(r"`([^`]+)`|\*\*(.+?)\*\*|\[([^\]]+)\]\([^)]*\)")
CELL = re.compile(r"(?<!\\)\|")


def escaped(text):
    text = text.replace("\\", "\\e").replace("-", "\\-").replace("'", "\\(aq")
    return "\\&" + text if text.startswith(".") else text


def inline(text):
    """The text with its code and strong words in bold, and links as their words alone."""
    pieces, at = [], 0
    for found in CODE.finditer(text):
        pieces.append(escaped(text[at : found.start()]))
        strong = found[1] or found[2]
        pieces.append(f"\\fB{escaped(strong)}\\fR" if strong else inline(found[3]))
        at = found.end()
    line = "".join([*pieces, escaped(text[at:])])
    return "\\&" + line if line.startswith((".", "'")) else line


def rows(lines):
    """The rows of a table, each as its cells, without the head."""
    cells = [[it.strip().replace("\\|", "|") for it in CELL.split(line.strip().strip("|"))] for line in lines]
    return cells[2:]


def blocks(text):
    """The blocks of a page, each with its kind."""
    lines, kept = text.split("\n"), []
    while lines:
        line = lines.pop(0)
        if line.startswith("```"):
            code = []
            while lines and not lines[0].startswith("```"):
                code.append(lines.pop(0))
            lines = lines[1:]
            kept.append(("code", code))
        elif line.startswith("#"):
            kept.append(("head", [line]))
        elif line.strip():
            block = [line]
            while lines and lines[0].strip() and not lines[0].startswith(("#", "```", "- " if line.startswith("- ") else "```")):
                block.append(lines.pop(0))
            kept.append(("table" if line.startswith("|") else "item" if line.startswith("- ") else "text", block))
    return kept


def page(text, version):
    out = []
    for kind, lines in blocks(text):
        if kind == "head":
            marks, _, title = lines[0].partition(" ")
            out.append(f'.TH {title.upper()} 1 "" "{version}"' if marks == "#" else f".SH {escaped(title.upper())}" if marks == "##" else f".SS {escaped(title)}")
        elif kind == "code":
            out += [".PP", ".RS 4", ".nf", *(escaped(it) or "\\&" for it in lines), ".fi", ".RE"]
        elif kind == "table":
            for first, *others in rows(lines):
                out += [".TP", inline(first), inline("; ".join(filter(None, others)))]
        elif kind == "item":
            out += [".IP \\(bu 2", inline(" ".join(it.strip() for it in lines)[2:])]
        else:
            out += [".PP", inline(" ".join(it.strip() for it in lines))]
    return "\n".join(out) + "\n"


def version():
    """The commit of the page, where git knows it."""
    ran = subprocess.run(["git", "-C", os.path.dirname(os.path.abspath(__file__)), "rev-parse", "--short", "HEAD"], capture_output=True, text=True, check=False)
    return f"chc {ran.stdout.strip()}".strip()


if __name__ == "__main__":
    with open(sys.argv[1], encoding="utf-8") as file:
        print(page(file.read(), version()), end="")
