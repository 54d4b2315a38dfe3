#!/usr/bin/env python3
"""Respells this repository's own names as today's Rattle does: `two-quorums-meet` is `two_quorums_meet`, `Tells-subset` is `TellsSubset`.

usage: python3 tools/respell.py    once, at the top of the repository, after the toolchain's own port.py

A name is ours if it stands, with a dash, in a file of specs/ or proofs/ that is no Answers.antt or Invariants.antt, and no library exports it:
names that the check makes for goals and steps stay. It changes .antt and .rt files, not strings or must-fail edits, and names between
backquotes in comments and pages. It stops where two names would fall together, or where a new name is taken already in specs or proofs.
"""
import collections
import os
import re
import sys

DASHED = re.compile(r"[^\W\d][\w']*(?:-[\w']+)+")
PLAIN = re.compile(r"(?<![\w'-])[^\W\d][\w']*(?![\w'-])")
IMPORT = re.compile(r"use (?:Rattle\.std|mathlib|Prim|native|lib|borrow)[\w.'-]*\.\{([^}]*)\}")


def files(*ends):
    for folder, dirs, names in os.walk("crates"):
        dirs[:] = sorted(d for d in dirs if d != "out")
        for name in sorted(names):
            if name.endswith(ends):
                yield os.path.join(folder, name)


def read(path):
    with open(path, encoding="utf-8") as f:
        return f.read()


def is_answer(path):
    return os.path.basename(path) in ("Answers.antt", "Invariants.antt", "Choices.antt")


def code(line, mark):
    """The part of a line before its comment, and the comment."""
    at = re.search(r"(?:^|\s)" + mark + r"(?:\s|$)", line)
    return (line[: at.start()], line[at.start() :]) if at else (line, "")


def respelled(name):
    parts = name.split("-")
    if not name[0].isupper() or len(parts[0]) == 1:
        return "_".join(parts)
    return "".join(p[:1].upper() + p[1:] for p in parts)


def ours():
    library, dashed = set(), set()
    for path in files(".antt"):
        text = read(path)
        for names in IMPORT.findall(text):
            library.update(n.strip().split(" as ")[0].strip() for n in names.split(","))
        if not is_answer(path):
            for line in text.split("\n"):
                dashed.update(DASHED.findall(code(line, "--")[0]))
    return {n: respelled(n) for n in dashed - library}


def spoken():
    """The names without a dash that stand in specs and proofs."""
    names = set()
    for path in files(".antt"):
        if not is_answer(path):
            for line in read(path).split("\n"):
                if not line.startswith(("mod ", "pub mod ", "use ")):
                    names.update(PLAIN.findall(code(line, "--")[0]))
    return names


def check(new, taken):
    together = collections.defaultdict(set)
    for old, name in new.items():
        together[name].add(old)
    bad = [sorted(v) for v in together.values() if len(v) > 1]
    bad += sorted(n for n in together if n in taken)
    if bad:
        sys.exit(f"these names fall together or are taken: {bad}")


def turn(text, new):
    return DASHED.sub(lambda m: new.get(m.group(0), m.group(0)), text)


def turn_antt(line, new):
    head, tail = code(line, "--")
    return turn(head, new) + turn_page(tail, new)


def turn_rt(line, new):
    head, tail = code(line, "//")
    pieces = re.split(r'("(?:[^"\\]|\\.)*")', head)
    return "".join(p if p.startswith('"') else turn(p, new) for p in pieces) + turn_page(tail, new)


def turn_page(line, new):
    return re.sub(r"`[^`]*`", lambda m: turn(m.group(0), new), line)


def write(path, text):
    if text != read(path):
        with open(path, "w", encoding="utf-8") as f:
            f.write(text)


def main():
    new = ours()
    taken = spoken()
    check(new, taken)
    for path in files(".antt", ".rt"):
        by = turn_antt if path.endswith(".antt") else turn_rt
        write(path, "\n".join(by(line, new) for line in read(path).split("\n")))
    pages = ["README.md"] + [os.path.join("docs", p) for p in sorted(os.listdir("docs")) if p.endswith(".md")]
    # the pages also have names that port.py has respelled
    respelled_before = {n.replace("_", "-"): n for n in taken if "_" in n}
    for path in pages:
        write(path, "\n".join(turn_page(line, respelled_before | new) for line in read(path).split("\n")))
    print(f"{len(new)} names respelled")


main()
