#!/usr/bin/env python3
"""Brings this repository's own definitions and lemmas to today's spelling: words in snake case, types in camel case.

Run once at the top of the repository, after /opt/rattle/port/port.py. A name counts as our own if a file of a crate's
specs/ or a file right in its proofs/ declares it, or if a file of answers declares it and it is no goal. Functions of src/,
labels of goals, the library's names and strings stay. It stops, and writes nothing, where two names would fall together.
"""
import os
import re
import sys

WORD = r"[^\s(){}\[\];,.:=λ∀\"⌜⌝«»@|]+"
MARKS = r"(?:(?:pub|abbrev|unfoldable|opaque|mutual)\s+)*"
DECLARED = re.compile(r"^\s*(?:\|\s*)?" + MARKS + r"(?:data\s+|record\s+)?(" + WORD + r")(?=\s*(?::|\(|\{))", re.M)
ALIAS = re.compile(r"^\s*use\s+Rattle\.\S+ as ([a-z][\w-]*)$", re.M)
GOAL = re.compile(r"^\s*:\s*(?:[^;\n]*)\b(?:goal|need|given)\.")
USED = re.compile(r"^\s*(?:pub\s+|ghost\s+)?use\s+(\S+?)\.\{([^}]*)\}", re.M)


def files(root, ends):
    for folder, dirs, names in os.walk(os.path.join(root, "crates")):
        dirs[:] = sorted(d for d in dirs if d != "out")
        for name in sorted(names):
            if name.endswith(ends):
                yield os.path.join(folder, name)


def bare(text):
    return re.sub(r"--.*", "", text)


def library_names(text):
    for path, items in USED.findall(text):
        if path.startswith("Rattle.std") or not path.startswith("Rattle."):
            for item in items.split(","):
                yield item.split(" as ")[0].strip()


def own_names(root):
    own, library = set(), set()
    for path in files(root, ".antt"):
        text = bare(open(path, encoding="utf-8").read())
        library.update(library_names(text))
        own.update(ALIAS.findall(text))
        for found in DECLARED.finditer(text):
            rest = text[found.end():].split("\n", 1)[0]
            if not GOAL.match(rest):
                own.add(found[1])
    return own, library


def turned(name):
    if name[0].isupper():
        first, *rest = name.split("-")
        return first + "".join(part[:1].upper() + part[1:] for part in rest)
    return name.replace("-", "_")


def plan(root):
    own, library = own_names(root)
    # a name with a sign of an operator, or without a letter, is no word
    wanted = {n for n in own if "-" in n and re.fullmatch(r"[A-Za-z][A-Za-z0-9_'\-]*", n) and not n.endswith("-")}
    return {n: turned(n) for n in sorted(wanted - library)}, own, library


def main():
    root = os.getcwd()
    names, own, library = plan(root)
    bad = [f"{old} -> {new}" for old, new in names.items() if new in own - set(names) or new in library]
    seen = {}
    for old, new in names.items():
        if new in seen:
            bad.append(f"{old}, {seen[new]} -> {new}")
        seen[new] = old
    if "--list" in sys.argv:
        print("\n".join(f"{o} {n}" for o, n in names.items()))
    if bad:
        print("names that fall together:\n" + "\n".join(bad))
        if "--anyway" not in sys.argv:
            return 1
    if "--list" in sys.argv:
        return 0
    word = re.compile(r"[A-Za-z_][A-Za-z0-9_'\-]*[A-Za-z0-9_']")
    for path in files(root, (".antt", ".rt")):
        text = open(path, encoding="utf-8").read()
        new = word.sub(lambda m: names.get(m[0], m[0]), text)
        if new != text:
            open(path, "w", encoding="utf-8").write(new)
    return 0


sys.exit(main())
