#!/usr/bin/env python3
"""Spells the repository's own definitions and lemmas as today's library does, after port.py.

usage: respell.py        at the top of the repository

respell.tsv beside this file has a row for each name, the old one and the new one.

A definition in camel case becomes one in snake case. In a lemma's name a dash stays where it joins the names of two
definitions, as in `length-lay_out`; else it becomes `_`. A name that would meet another gets `_lem`.
Types, modules and constructors begin with a capital and stay. So do the names that Rattle makes for the goals and the
steps of a function: behind `tie.` or `goal.`, and a function's own name behind a dot in the files of a proof.
What is renamed: words of .antt files, of the clauses of .rt files, of the edits in must-fail/; in comments and in pages,
a name in camel case anywhere and one with a dash in a code span or behind a dot.
"""

import glob
import os
import re

WORD = re.compile(r"[^\s(){}.;,@\"«»\[\]|`]+")
COMMENT = re.compile(r"(?:--|//).*$", re.M)


def read(path):
    with open(path, encoding="utf-8") as f:
        return f.read()


def proof_folder(path):
    return re.search(r"/proofs/[^/]+/", path) is not None


def files(*kinds):
    found = []
    for folder, below, names in os.walk("crates"):
        below[:] = sorted(d for d in below if d != "out")
        found += [os.path.join(folder, n) for n in sorted(names) if n.rsplit(".", 1)[-1] in kinds]
    return found


def plain(text, rows):
    """Prose: a name in camel case anywhere, one with a dash in a code span or behind a dot."""

    def turn(m):
        old = m[0]
        if old not in rows:
            return old
        if "-" in old:
            before, after = text[: m.start()], text[m.end() :]
            if not (before.endswith(".") and re.search(r"[A-Za-z]\.$", before) or before.endswith("`") or before.count("`") % 2):
                return old
        return rows[old]

    return re.sub(r"[A-Za-z][\w'-]*[\w']", turn, text)


def code(text, rows, own):
    """Code of antt. `own` has the names of functions, whose steps stay in a file of a function's own proof."""

    def turn(m):
        old = m[0]
        if old not in rows:
            return old
        before = text[: m.start()]
        if "-" in old and old.replace("-", "_") in own and before.endswith("."):
            return old
        if re.search(r"\b(?:tie|goal)\.(?:Need-)?$", before):
            return old
        return rows[old]

    return WORD.sub(turn, text)


def respelled(text, rows, own):
    out, at = [], 0
    for m in COMMENT.finditer(text):
        out += [code(text[at : m.start()], rows, own), plain(m[0], rows)]
        at = m.end()
    return "".join(out + [code(text[at:], rows, own)])


def main():
    with open(os.path.join(os.path.dirname(os.path.abspath(__file__)), "respell.tsv"), encoding="utf-8") as f:
        rows = dict(line.rstrip("\n").split("\t") for line in f)
    functions = set(re.findall(r"\bfn (\w+)", "".join(map(read, files("rt")))))
    for path in files("antt", "rt", "edit"):
        old = read(path)
        new = respelled(old, rows, functions if proof_folder(path) else set())
        if new != old:
            with open(path, "w", encoding="utf-8") as f:
                f.write(new)
    for path in ["README.md", *sorted(glob.glob("docs/*.md"))]:
        old = read(path)
        new = "\n".join(plain(line, rows) for line in old.split("\n"))
        if new != old:
            with open(path, "w", encoding="utf-8") as f:
                f.write(new)


main()
