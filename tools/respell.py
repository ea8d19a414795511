#!/usr/bin/env python3
"""Brings the repository's own definitions, lemmas, fields and constructors of antt to snake case.

usage: python3 tools/respell.py        at the top of the repository, once, behind the toolchain's port.py

Types, and facts that are spelled like types, keep their capital letter. A dash stays only where it joins the
names of two definitions, as in `length-frame`; elsewhere it becomes an underscore. Names that a Rattle source
or the toolchain gives (functions, parameters, goals, steps) are left alone. It stops where two names would
fall together.
"""
import os
import re
import sys

WORD = r"[^\s(){}\[\];,.\"`]+"
# what the library calls operations on lists, as a part of a lemma's name
STD = {"length", "append", "push", "drop", "take"}
# where the plain rule would make two names one, or a name that hides another
CHOSEN = {
    "with-code": "code_of-with_code",
    "first-from": "first_none",
}
# variables of definitions that are spelled like names
VARIABLES = {"atImage": "at_image", "atStation": "at_station"}


def files(top, ends):
    for folder, dirs, names in os.walk(os.path.join(top, "crates")):
        dirs[:] = sorted(d for d in dirs if d != "out")
        for name in sorted(names):
            if name.endswith(ends):
                yield os.path.join(folder, name)


def answers(path):
    """A file of a function's proof: what it declares is named by the toolchain."""
    return os.path.basename(path) in ("Answers.antt", "Invariants.antt", "Choices.antt", "Proof.antt")


def declared(text, line=r"(?:(?:abbrev|unfoldable|pub) )*"):
    """The names that a file of definitions or lemmas declares at the head of a line."""
    return {m.group(1) for m in re.finditer(r"^%s(%s) :" % (line, WORD), text, re.M) if re.match(r"[a-zA-Z]", m.group(1))}


def members(text):
    """The names of fields and constructors."""
    return declared(text, r"  (?:pub )?")


def snake(part):
    if not re.match(r"[a-z]", part):
        return part
    return re.sub(r"(?<=[a-z0-9])([A-Z])", lambda m: "_" + m.group(1).lower(), part)


def respelled(name, defined):
    if name in CHOSEN:
        return CHOSEN[name]
    parts = name.split("-")
    out = snake(parts[0])
    for before, part in zip(parts, parts[1:]):
        both = (before in defined or before in STD) and (part in defined or part in STD)
        out += ("-" if both else "_") + snake(part)
    return out


def from_std(text):
    """The names that a file takes from the library."""
    taken = set()
    for m in re.finditer(r"^(?:ghost )?use Rattle\.std\.[^{;]*\{([^}]*)\}", text, re.M):
        taken |= {w.split(" as ")[0].strip() for w in m.group(1).split(",")}
    return taken


def table(top):
    named, defined = set(), set()
    for path in files(top, ".antt"):
        with open(path, encoding="utf-8") as f:
            text = f.read()
        inside = declared(text)
        if answers(path):
            # what is left are lemmas: a goal has `goal.` behind its colon
            inside = {n for n in inside if not re.search(r"^(?:(?:abbrev|pub) )*%s : goal\." % re.escape(n), text, re.M)}
        else:
            named |= members(text)
        if "/specs/" in path:
            defined |= inside
        named |= inside
    return {n: respelled(n, defined) for n in named if respelled(n, defined) != n}, named


def turned(text, names):
    kept = from_std(text)
    word = re.compile(r"(?<![\w'-])[A-Za-z][\w'≢≡≤-]*")
    return word.sub(lambda m: names[m.group(0)] if m.group(0) in names and m.group(0) not in kept else m.group(0), text)


def turned_source(text, names):
    """A source: only its ghost lines and clauses name definitions, and no Rust name has a capital behind a small letter."""
    plain = {n: s for n, s in names.items() if re.fullmatch(r"[a-z][a-z0-9]*([A-Z][a-z0-9]*)+", n)}
    return turned(text, plain)


def main():
    top = os.getcwd()
    if not os.path.isdir(os.path.join(top, "crates")):
        sys.exit("respell: run it at the top of the repository")
    names, named = table(top)
    names.update(VARIABLES)
    taken = {}
    for old, new in sorted(names.items()):
        if new in named or new in taken:
            sys.exit(f"respell: {old} and {taken.get(new, new)} would both be {new}")
        taken[new] = old
    if "--list" in sys.argv:
        for old, new in sorted(names.items()):
            print(old, new)
        return
    for path in files(top, (".antt", ".rt")):
        with open(path, encoding="utf-8") as f:
            text = f.read()
        new = turned(text, names) if path.endswith(".antt") else turned_source(text, names)
        if new != text:
            with open(path, "w", encoding="utf-8") as f:
                f.write(new)
    print(f"respell: {len(names)} names")


if __name__ == "__main__":
    main()
