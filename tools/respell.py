#!/usr/bin/env python3
"""Brings the repository's own definitions and lemmas to the spelling of today's Rattle, after port.py: words in snake case.

usage: tools/respell.py        at the top of the repository, once, with everything committed

Each line of respell.tsv has a name and its new spelling. A name is replaced where it stands whole: in definitions, proofs, clauses and
edits, and in comments and pages between backquotes. What begins like a name of Rattle's source (a path after `proofs.`, a step of a proof)
keeps its spelling. The files `specs/Contracts.antt` become `specs/Promised.antt`, since Rattle makes a module `specs.contracts` of its own.
"""
import os
import re
import subprocess

TOP = os.path.dirname(os.path.dirname(os.path.realpath(__file__)))
EDGE = r"\s(){}\[\];,|:\"`«»⌜⌝"
NAMES = {}
with open(os.path.join(TOP, "tools", "respell.tsv"), encoding="utf-8") as rows:
    for row in rows:
        old, new = row.rstrip("\n").split("\t")
        NAMES[old] = new
# A name that is in snake case already may be one of Rattle's source too: after a dot it is left alone.
PLAIN = {n for n in NAMES if re.fullmatch(r"[a-z0-9_]+", n)}
TOKEN = re.compile(r"(?<![^%s.])([a-z][A-Za-z0-9_'-]*)(?![^%s.])" % (EDGE, EDGE))


def spell(match):
    name = match.group(1)
    before = match.string[: match.start()]
    if name in PLAIN and before.endswith("."):
        return name
    return NAMES.get(name, name)


def quoted(text):
    return re.sub(r"`[^`\n]*`", lambda m: TOKEN.sub(spell, m.group(0)), text)


def line_of(line, comment):
    # A word of the code in snake case is a function's, a field's or a local's.
    if comment == "//":
        return TOKEN.sub(lambda m: m.group(1) if m.group(1) in PLAIN else NAMES.get(m.group(1), m.group(1)), line)
    at = line.find(comment) if line.lstrip().startswith(comment) else line.find(" " + comment + " ")
    if at < 0:
        return TOKEN.sub(spell, line)
    return TOKEN.sub(spell, line[:at]) + quoted(line[at:])


def contracts(text):
    text = re.sub(r"(\.specs\.)Contracts\b", r"\1Promised", text)
    return re.sub(r"(?m)^pub mod Contracts$", "pub mod Promised", text)


def turn(path, comment):
    with open(path, encoding="utf-8") as f:
        text = f.read()
    if comment is None:
        new = re.sub(r"(`[a-z_]+: |`)Contracts\.", r"\1Promised.", re.sub(r"specs/Contracts\.antt", "specs/Promised.antt", quoted(text)))
    else:
        new = contracts("".join(line_of(l, comment) for l in text.splitlines(keepends=True)))
    if new != text:
        with open(path, "w", encoding="utf-8") as f:
            f.write(new)


def main():
    listed = subprocess.run(["git", "ls-files"], cwd=TOP, capture_output=True, text=True, check=True).stdout.splitlines()
    for name in listed:
        path = os.path.join(TOP, name)
        if name.startswith("crates/") and name.endswith(".antt"):
            turn(path, "--")
        elif name.startswith("crates/") and name.endswith((".rt", ".edit")):
            turn(path, "//")
        elif name.endswith(".md"):
            turn(path, None)
    for name in listed:
        if name.endswith("/specs/Contracts.antt"):
            os.rename(os.path.join(TOP, name), os.path.join(TOP, name[: -len("Contracts.antt")] + "Promised.antt"))


main()
