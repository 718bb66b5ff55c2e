#!/usr/bin/env python3
"""Brings the names of the repository's own definitions and lemmas to snake case, and those of types to camel case; calls
the older words of lists by the names that the library has for them; and names the bound in clauses of generic functions.

usage: python3 tools/snake_names.py      at the top of a tree that the kit's port.py has turned

A name that the check itself makes (of a goal, an invariant or a measure) keeps its spelling, and so does a dash that
joins a word of the library and a definition of this repository, as in `length-chain`. A name whose new spelling is
declared already keeps the old one, and a new spelling that stands in a file of the old one is told.
"""

import glob
import re

WORDS = {"length", "append"}
OLDER = {"All": "AllByRecursion", "Has": "ContainsAt"}
# a bound variable that port.py takes for a word of the library
MISTAKEN = {"type_size": "size_of"}
ALIAS = re.compile(r"(?<= as )[a-z]+(?:-[a-z]+)+")
SIGNATURE = re.compile(r"^\s*((?:abbrev |unfoldable |pub |record |data |infixl |infixr )*)([^\s(){}:=|,;]+)((?:\s+[({].*?[)}])*)\s+:\s+(.*)$")
MADE = re.compile(r"\bgoal\.(\S+)$")
TOKEN = re.compile(r"[\w'·⊑◌-]+")


def declared(paths):
    """Each name with a signature in some file: whether it is a type, and whether the check makes it."""
    types, others, made = set(), set(), set()
    for path in paths:
        for line in open(path, encoding="utf-8"):
            m = SIGNATURE.match(line)
            if not m or m.group(2) in ("let", "in", "--"):
                continue
            name, rest = m.group(2), m.group(4)
            if MADE.search(rest):
                made.add(name)
            elif name[0].isupper():
                types.add(name)
            else:
                others.add(name)
    return types, others, made


def joined(name, names):
    """Is the dash of `name` one that joins a word of the library and a definition of this repository?"""
    left, _, right = name.partition("-")
    return "-" not in right and (left in WORDS and right in names or left in names and right in WORDS)


def respelled(path, text):
    """The text with the older words under their new names and `meaning` under its bound, outside comments."""
    lines = text.split("\n")
    for k, line in enumerate(lines):
        if line.lstrip().startswith(("--", "//")):
            continue
        for old, new in OLDER.items():
            line = line.replace(f"{new} as {old}", new)
            line = re.sub(rf"(?<![\w'.-]){old}(?![\w'-])", new, line)
        for old, new in MISTAKEN.items():
            line = re.sub(rf"\b{old}\b", new, line)
        if path.endswith(".rt") and "crates/scale/" not in path and re.search("ensures|requires", line):
            line = re.sub(r"(?<![\w.])meaning\b", "S.meaning", line)
        lines[k] = line
    return "\n".join(lines)


def main():
    proofs = [p for p in glob.glob("crates/**/*.antt", recursive=True) if "/out/" not in p]
    sources = [p for p in glob.glob("crates/*/src/*.rt")]
    types, others, made = declared(proofs)
    names = types | others
    turned = {}
    for name in sorted(n for n in (types | others) - made if "-" in n):
        if name in types:
            turned[name] = "".join(part[0].upper() + part[1:] for part in name.split("-"))
        elif not joined(name, names):
            turned[name] = name.replace("-", "_")
    for path in proofs + sources:
        for alias in ALIAS.findall(open(path, encoding="utf-8").read()):
            turned[alias] = alias.replace("-", "_")
    for name in [n for n in turned if turned[n] in types | others | made]:
        print(f"kept: {name}, since {turned.pop(name)} is declared")
    texts = {p: open(p, encoding="utf-8").read() for p in proofs + sources}
    standing = {}
    for path, text in texts.items():
        for token in TOKEN.findall(text):
            standing.setdefault(token, set()).add(path)
    for name, new in sorted(turned.items()):
        shared = standing.get(new, set()) & {p for p in texts if re.search(r"(?<![\w'-])" + re.escape(name) + r"(?![\w'-])", texts[p])}
        if shared:
            print(f"look: {name} becomes {new}, which stands beside it in {sorted(shared)[:3]}")
    pattern = re.compile(r"(?<![\w'-])(" + "|".join(re.escape(n) for n in sorted(turned, key=len, reverse=True)) + r")(?![\w'-])")
    for path, text in texts.items():
        new = respelled(path, pattern.sub(lambda m: turned[m.group(1)], text) if turned else text)
        if new != text:
            open(path, "w", encoding="utf-8").write(new)
    print(f"{len(turned)} names turned")


main()
