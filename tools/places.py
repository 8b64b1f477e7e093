#!/usr/bin/env python3
"""Counts the places in src/ that have an older form: python3 tools/places.py [COMMIT] [--list POINT].

Point by point as docs/DESIGN-PASS.md has them. A place is a line, a clause or a function; `--list POINT` prints them.
Without a commit the working tree is read.
"""
import collections
import os
import re
import subprocess
import sys

FUNCTION = re.compile(r"^( *)(?:pub )?(?:extern \"C\" )?fn (\w+)", re.M)
# Crates whose functions stand for C, tests or the outside: their signatures are the C interface's.
OUTSIDE = {"window", "probes"}


def git(*words):
    return subprocess.run(["git", *words], capture_output=True, text=True, check=True).stdout


def sources(commit, pattern=r"crates/\w+/src/.*\.rt"):
    """Gives (crate, path, text) of each file of src/, or of those that the pattern names."""
    names = git("ls-files", "crates") if commit is None else git("ls-tree", "-r", "--name-only", commit, "crates")
    names = [it for it in names.split() if re.fullmatch(pattern, it) and (commit or os.path.exists(it))]
    return [(it.split("/")[1], it, git("show", f"{commit}:{it}") if commit else open(it, encoding="utf-8").read()) for it in names]


def functions(text):
    """Gives (name, first line, head, body) of each function with a body."""
    lines = text.split("\n")
    for at, line in enumerate(lines):
        found = FUNCTION.match(line)
        if not found:
            continue
        indent = found.group(1)
        end = next((i for i in range(at, len(lines)) if lines[i] == indent + "}" or (i == at and line.rstrip().endswith("}"))), None)
        if end is None:
            continue
        opens = next((i for i in range(at, end) if lines[i].rstrip() in (indent + "{",) or (lines[i].rstrip().endswith("{") and not lines[i].lstrip().startswith(("requires", "ensures")))), at)
        yield found.group(2), at + 1, "\n".join(lines[at : opens + 1]), "\n".join(lines[opens + 1 : end])


def by_line(pattern, skip=()):
    def find(files):
        return [(path, number, line.strip()) for crate, path, text in files if crate not in skip for number, line in enumerate(text.split("\n"), 1) if re.search(pattern, line)]

    return find


def in_code(pattern, skip=()):
    """The same, comments and clauses apart."""

    def find(files):
        return [it for it in by_line(pattern, skip)(files) if not it[2].startswith(("//", "requires", "ensures", "ghost"))]

    return find


def twins(files):
    """Functions whose body is another's but for names and numbers. A body of one expression is a call or a formula, and no twin."""
    shapes = collections.defaultdict(list)
    for crate, path, text in files:
        if crate in OUTSIDE:
            continue
        for name, line, head, body in functions(text):
            shape = re.sub(r"//.*", "", body)
            if ";" not in shape and "{" not in shape:
                continue
            shape = re.sub(r"\bb\"[^\"]*\"|\b\w+\b", lambda it: it.group(0) if it.group(0) in ("if", "else", "return", "while", "for", "in", "let", "mut", "match", "loop", "as", "true", "false") else "x", shape)
            shape = re.sub(r"\s+", " ", shape)
            shape = re.sub(r"x(, x)*,? ?\)", "x)", shape)
            shapes[shape].append((path, line, name))
    return [it for shape, group in shapes.items() if len(group) > 1 for it in group]


def repeated_facts(files):
    """Clauses of `requires` that stand, but for the names of variables, in three functions or more."""
    found = collections.defaultdict(list)
    for crate, path, text in files:
        if crate in OUTSIDE:
            continue
        for number, line in enumerate(text.split("\n"), 1):
            clause = re.match(r"\s*requires (?:\w+ )?\{ (.*) \}$", line)
            if not clause:
                continue
            for part in re.split(r" × ", clause.group(1)):
                part = part.strip("() ")
                part = re.sub(r"\b\w+\.(now|old)\b", r"v.\1", part)
                part = part.replace("v.old", "v.now")
                found[part].append((path, number, part))
    return [it for part, group in found.items() if len(group) >= 3 for it in group]


def with_count(files):
    """Functions that take bytes and beside them how many records there are in them."""
    return [
        (path, line, name)
        for crate, path, text in files
        if crate not in OUTSIDE
        for name, line, head, body in functions(text)
        if re.search(r"&(mut )?\[u8\]", head) and re.search(r"\b(count|n|m|used): usize", head)
    ]


def answers(files):
    """Goals that a proof file answers, of functions."""
    return [(path, number, line) for crate, path, text in files for number, line in enumerate(text.split("\n"), 1) if re.match(r"pub \S+ : goal\.", line)]


POINTS = {
    "1a": ("a number for a refusal", in_code(r"return (unchanged\()?(3[01]?|[1-9]|1[0-2]|21)\)?;|unchanged\((code|[0-9]+)\)|code != 0|refused != 0|numbers != 0")),
    "1b": ("a special number for 'none'", by_line(r"[;,] ?(and )?(0|256) (where|if)|the (count|line's length) where there is no|NO_NUMBER|< 256 \{|> last|call: 0,")),
    "1c": ("a flag with a value, or for which of two", in_code(r"\b(every|moving|back|more|reads|writes): bool|\bover: bool")),
    "1d": ("a number for a kind, mode, operations or status", in_code(r"\b(kind|mode|operations|ops|how|low|high|s): (u8|u32)", OUTSIDE)),
    "2": ("a function with the shape of another", twins),
    "3": ("a loop by hand", in_code(r"^\s*(while|loop)\b")),
    "4": ("a widening cast, or a copy, order, equality or text by hand", in_code(r"(?<!self)(?<!refusal) as (usize|u64|u32)\b|(?<![.\w])(copy_in|clear|index|wide|least|greater|bit|equal|join2|join4|same|show_before|shift_up|move_row|move_record|write_row)\(")),
    "5": ("a fact in three contracts or more", repeated_facts),
    "6": ("bytes with a count beside them", with_count),
    "7": ("a switch by numbers or names", in_code(r"text::same\(|^\s*[0-9]+(\.\.=[0-9]+)? => ")),
    "8": ("a goal that an answer is written for", answers),
}


def main():
    arguments = sys.argv[1:]
    listed = None
    if "--list" in arguments:
        at = arguments.index("--list")
        listed = arguments[at + 1]
        del arguments[at : at + 2]
    commit = arguments[0] if arguments else None
    files = sources(commit)
    proofs = sources(commit, r"crates/\w+/proofs/.*/Answers\.antt")
    for point, (what, find) in POINTS.items():
        places = find(proofs if point == "8" else files)
        if listed is None:
            print(f"{point:3} {len(places):5}  {what}")
        elif listed == point:
            for path, number, text in places:
                print(f"{path}:{number}: {text}")


if __name__ == "__main__":
    main()
