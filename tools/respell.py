#!/usr/bin/env python3
"""Gives the definitions, lemmas and ghost members of this repository the spelling of today's Rattle.

usage: python3 tools/respell.py [--list]      at the top of the repository, once, after /opt/rattle/port/port.py

Every name that a file of specs/ or proofs/ declares, every name that an `as` gives, and the two ghost members with
capitals: words are joined by `_`. A dash stays where it joins two names, as the outer call and the inner one of a lemma.
Code, comments, strings and texts outside crates/ are left alone. --list prints the names and changes nothing.
"""

import os
import re
import sys

# The dash joins the names of two functions here: it stays.
KEEP = {"width-append", "width-take", "length-frame"}
# Variables of definitions that have a dash.
VARIABLES = {"read-write", "d-id", "key-length", "with-system"}

WORD = re.compile(r"(?<![\w'-])[A-Za-z_][\w']*(?:-[\w']+)*(?![\w'-])")
DECLARED = re.compile(r"^\s*(?:(?:abbrev|unfoldable|pub|data|record|ruleset)\s+)*([A-Za-z][\w'-]*)\s*(?:[({].*)?:\s")
GIVEN = re.compile(r"\bas ([a-z][\w'-]*)")
BOUND = re.compile(r"λ ([a-z][\w'-]*)\.")
MEMBER = re.compile(r"^\s*ghost (\w+)\s*[:=]")


def files():
    for folder, dirs, names in os.walk("crates"):
        dirs[:] = sorted(d for d in dirs if d != "out")
        for name in sorted(names):
            if name.endswith((".antt", ".rt")):
                yield os.path.join(folder, name)


def parts(path, text):
    """The text, cut into pieces that are code (even places) and pieces that are comments or strings (odd ones)."""
    pattern = r"(--[^\n]*)" if path.endswith(".antt") else r'(//[^\n]*|"(?:\\.|[^"\\])*")'
    return re.split(pattern, text)


def code(path):
    with open(path, encoding="utf-8") as f:
        return "".join(parts(path, f.read())[::2])


def spelled(name):
    return re.sub(r"(?<=[a-z])([A-Z])", lambda m: "_" + m.group(1).lower(), name).replace("-", "_")


def own():
    """Old and new spelling of each name that changes."""
    names = set()
    for path in files():
        text = code(path)
        if path.endswith(".antt"):
            for line in text.split("\n"):
                m = DECLARED.match(line)
                if m and "goal." not in line:
                    names.add(m.group(1))
            names |= set(BOUND.findall(text))
        else:
            for line in text.split("\n"):
                m = MEMBER.match(line)
                if m and m.group(1)[0].islower():
                    names.add(m.group(1))
        for line in text.split("\n"):
            if re.match(r"\s*(ghost )?use ", line):
                names |= set(GIVEN.findall(line))
    names -= KEEP
    new = {n: spelled(n) for n in names if not n[0].isupper()}
    if len(set(new.values())) != len(new):
        sys.exit("two names fall together")
    return {a: b for a, b in new.items() if a != b} | {n: spelled(n) for n in VARIABLES}


def main(argv):
    new = own()
    if argv == ["--list"]:
        print("\n".join(f"{a} {b}" for a, b in sorted(new.items())))
        return
    changed = 0
    for path in files():
        with open(path, encoding="utf-8") as f:
            text = f.read()
        pieces = parts(path, text)
        pieces[::2] = [WORD.sub(lambda m: new.get(m.group(), m.group()), p) for p in pieces[::2]]
        after = "".join(pieces)
        if after != text:
            with open(path, "w", encoding="utf-8") as f:
                f.write(after)
            changed += 1
    print(f"respell: {len(new)} names, {changed} files")


main(sys.argv[1:])
