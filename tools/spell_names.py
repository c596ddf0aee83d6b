#!/usr/bin/env python3
"""Brings the names of this repository's definitions and lemmas to today's spelling.

usage: python3 tools/spell_names.py        at the top of the repository

A word is in snake case (next-at becomes next_at), a type, a record of facts or a fact in upper camel case
(Trees-stand becomes TreesStand). Only names that specs/ or proofs/ declare are respelled, in .antt and .rt files.
The names of goals, which an answer or an invariant repeats, are Rattle's and stay as they are.
It stops before it writes anything where two names of specs/ or proofs/ would fall together. A definition that has
the name of the function which it is the answer of is meant to.
"""

import os
import re
import sys

FACTS = {"spanned-in": "SpannedIn"}  # a fact that was spelled as a word
TAKEN = {"in-float": "small_in_float"}  # the plain spelling is a library's name that the same file imports
DECLARED = re.compile(r"^\s*((?:abbrev |unfoldable |pub |data |record |ruleset )*)([^\s:(){}.;,]+)((?:\s*[({][^)}]*[)}])*)\s*:(.*)$")
HEAD = re.compile(r"^\s*(?:pub )?(?:data|record|ruleset) ([^\s:(){}.;,]+)")
WORDS = re.compile(r"[\w'-]+")
PATHS = re.compile(r"Rattle(?:\.\w+)+|^pub mod \w+")  # a module may have the name of what it declares
NO_NAMES = {"use", "module", "where", "open", "let", "in", "--", "elim", "omega", "unfolding", "|", "["}


def files(kinds):
    for crate in sorted(os.listdir("crates")):
        for folder, dirs, names in os.walk(os.path.join("crates", crate)):
            dirs[:] = sorted(d for d in dirs if d != "out")
            for name in sorted(names):
                if name.endswith(kinds):
                    yield os.path.join(folder, name)


def read(path):
    with open(path, encoding="utf-8") as f:
        return f.read()


def declared(path):
    """The names that a file of specs/ or proofs/ declares, without goals."""
    for line in read(path).splitlines():
        head = HEAD.match(line)
        if head:
            yield head.group(1)
            continue
        m = DECLARED.match(line)
        if m and m.group(2) not in NO_NAMES and not m.group(4).strip().startswith("goal."):
            yield m.group(2)


def respelled(name):
    if name in FACTS or name in TAKEN:
        return FACTS.get(name) or TAKEN[name]
    if name[0].isupper():
        return "".join(part[0].upper() + part[1:] for part in name.split("-"))
    return name.replace("-", "_")


def main():
    if not os.path.isdir("crates"):
        sys.exit("spell_names: run it at the top of the repository")
    names = {}
    for path in files((".antt",)):
        for name in declared(path):
            if "-" in name.strip("-") and re.fullmatch(r"[A-Za-z][\w'-]*", name):
                names[name] = respelled(name)
    token = re.compile(r"(?<![\w'\"-])(" + "|".join(sorted(map(re.escape, names), key=len, reverse=True)) + r")(?![\w'-])") if names else None
    clashes, texts = [], {}
    for path in files((".antt", ".rt")):
        old = read(path)
        if not token:
            continue
        goals = set(re.findall(r"^\s*(?:abbrev )?(?:pub )?([\w'-]+) : goal\.\1", old, re.M))
        used = {m.group(1) for m in token.finditer(old)} - goals
        words = {w for line in old.splitlines() for w in WORDS.findall(PATHS.sub("", line))} if path.endswith(".antt") else set()
        for name in sorted(used):
            if names[name] in words and name != names[name]:
                clashes.append(f"{path}: {name} would fall together with {names[name]}")
        new = token.sub(lambda m: m.group(1) if m.group(1) in goals else names[m.group(1)], old)
        if new != old:
            texts[path] = new
    if clashes:
        print("\n".join(clashes))
        sys.exit("spell_names: nothing was written")
    for path, new in texts.items():
        with open(path, "w", encoding="utf-8") as f:
            f.write(new)
    print(f"spell_names: {len(names)} names, {len(texts)} files")


main()
