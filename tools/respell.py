#!/usr/bin/env python3
"""Brings the names of this repository's own definitions and lemmas to the spelling of Rattle's library, after port.py: words in snake case.

usage: tools/respell.py [FOLDER]      in the repository at FOLDER (default: the one that this file is in); a second run changes nothing

A name is respelled if it is declared in a crate's specs/ or in a lemma file of proofs/, and begins with a small letter: a capital within it
becomes `_` and a small letter, and a dash becomes `_`, but for a dash between the names of two functions. A lemma gets `_lem` behind it where
its name would then be one that is used already. Names of src/ keep their spelling, as do strings, inputs and outputs."""
import collections
import glob
import os
import re
import sys

WORD = re.compile(r"[^\s(){}.;,@\"«»`\[\]|:!?*/]+")
DECLARED = re.compile(
    r"\s*(?:(?:unfoldable|abbrev|pub)\s+)*(?:(data|record|module)\s+)?([^\s(){}:;,]+(?: [^\s(){}:;,]+)*)(?:\s+\{[^}]*\})*\s*(?:\([^)]*\)\s*)*:(?: |$)"
)
# Functions of the library with which names are joined by a dash.
LIBRARY = {"length", "drop", "take", "append", "map", "code", "and"}


def files(root, *patterns):
    return sorted(f for p in patterns for f in glob.glob(os.path.join(root, p), recursive=True) if "/out/" not in f)


def declared(root):
    """The names declared in lemma files and definitions, and which of them are functions of definitions."""
    names, functions = set(), set()
    for path in files(root, "crates/*/specs/**/*.antt", "crates/*/proofs/*.antt"):
        for line in open(path, encoding="utf-8"):
            found = DECLARED.match(line)
            if not found or line.lstrip().startswith("--"):
                continue
            names |= set(found.group(2).split())
            if "/specs/" in path and re.match(r"\s*(?:pub )?(?:unfoldable|abbrev)", line):
                functions |= set(found.group(2).split())
    return names, functions


def snake(part):
    return re.sub(r"(?<=[a-z0-9])[A-Z]", lambda c: "_" + c.group().lower(), part)


def table(root):
    names, functions = declared(root)
    functions = {snake(f) for f in functions if "-" not in f} | LIBRARY
    used = set()
    for path in files(root, "crates/**/*.antt", "crates/**/*.rt"):
        text = re.sub(r"(?m)(?:^|(?<=\s))(?:--|//).*", "", open(path, encoding="utf-8").read())
        used |= set(WORD.findall(text))
    rows, kept = {}, []
    # Words first, so that a lemma of the same letters is the one that gives way.
    for name in sorted(names, key=lambda n: ("-" in n, n)):
        if not re.match(r"[a-z]", name) or not re.search(r"[A-Z-]", name):
            continue
        parts = [snake(p) for p in name.split("-")]
        new = parts[0]
        for before, after in zip(parts, parts[1:]):
            new += ("-" if before in functions and after in functions else "_") + after
        if new == name:
            continue
        if "-" in name and new in used | set(rows.values()):
            kept.append((name, new))
            new += "_lem"
        rows[name] = new
    turned = collections.Counter(rows.values())
    assert all(n == 1 for n in turned.values()), [r for r in turned if turned[r] > 1]
    return rows, kept


def respell(text, rows):
    return WORD.sub(lambda w: rows.get(w.group(), w.group()), text)


def respell_spans(text, rows):
    """Only the code spans and the fenced blocks."""
    return re.sub(r"```.*?```|`[^`\n]+`", lambda s: respell(s.group(), rows), text, flags=re.S)


def main():
    root = sys.argv[1] if len(sys.argv) > 1 else os.path.join(os.path.dirname(os.path.abspath(__file__)), "..")
    listed = open(os.path.join(os.path.dirname(os.path.abspath(__file__)), "respelled.tsv"), "a", encoding="utf-8")
    rows, kept = table(root)
    # A name in snake case makes a function of what was none, so a few lemmas turn in a second turn.
    while rows:
        listed.write("".join(f"{a}\t{b}\n" for a, b in rows.items()))
        for name, new in kept:
            print(f"kept apart: {name} is {new}_lem")
        for path in files(root, "crates/**/*.antt", "crates/*/src/*.rt", "crates/*/must-fail/*.edit", "README.md", "docs/**/*.md"):
            text = open(path, encoding="utf-8").read()
            new = respell_spans(text, rows) if path.endswith(".md") else respell(text, rows)
            if new != text:
                with open(path, "w", encoding="utf-8") as out:
                    out.write(new)
        print(f"respelled: {len(rows)} names")
        rows, kept = table(root)


main()
