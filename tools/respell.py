#!/usr/bin/env python3
"""Respells this repository's own antt names: types in camel case, every other name in snake case; and the operators of formulas.

usage: python3 tools/respell.py          at the top of the repository: rewrites the files below crates/ in place
       python3 tools/respell.py --list   prints the renamings and writes nothing

A name is respelled where it has a dash and is declared in specs/ or proofs/. A name that is not pub is respelled in its own file only. Names that
Rattle makes (the answers' own names, and what follows `goal.`), the library's names and those of src/ stay. It stops, before it writes, where two
names would fall together, or a new one is the library's in a file that uses both.
"""

import os
import re
import sys

NAME = r"[^\s(){}.,;:«»]+"
SIGNATURE = re.compile(rf"^(?P<indent>\s*)(?P<words>(?:abbrev |unfoldable |pub |data |record |unique )*)(?P<names>{NAME}(?: {NAME})*?)(?P<telescope>(?:\s+[({{].*?)?)\s:\s(?P<type>.*)$")
TYPE = re.compile(r"Type(?: \{?\d\}?| \d)?(?: where)?\s*$")
EDGE = r"\s(){}.,;«»"


def files(root, ends):
    for folder, dirs, names in os.walk(os.path.join(root, "crates")):
        dirs[:] = sorted(d for d in dirs if d != "out")
        for n in sorted(names):
            if n.endswith(ends):
                yield os.path.join(folder, n)


def read(path):
    with open(path, encoding="utf-8") as f:
        return f.read()


def declared(path, text):
    """The names that a file declares: (name, whether other files see it, whether it is a type)."""
    for line in text.splitlines():
        if line.lstrip().startswith("--"):
            continue
        m = SIGNATURE.match(line)
        names = m["names"].split() if m else []
        # a line of a proof, or a type that goes on
        if not m or {"→", "_"} & {*names} or re.search(r"[=≔]|\blet\b", line[: m.start("type")]):
            continue
        for name in names:
            if "-" not in name or "◌" in name or m["type"].strip() == f"goal.{name}":
                continue
            seen = "pub" in m["words"].split() or (m["indent"] and "data " in text)
            yield name, bool(seen), bool(TYPE.search(m["type"]))


def spelled(name, is_type):
    if is_type and name[0].isupper():
        return "".join(p[0].upper() + p[1:] for p in name.split("-"))
    return name.replace("-", "_")


def turned(text, names):
    for old, new in sorted(names.items(), key=lambda it: -len(it[0])):
        text = re.sub(rf"(?<![^{EDGE}])(?<!goal\.){re.escape(old)}(?![^{EDGE}])", lambda m: new, text)
    return text


def imported(text):
    """The names that a file takes from the library."""
    for m in re.finditer(r"use (?:Rattle\.std\.|borrow\.|native\.|mathlib\.|lib\.|mir\.|Prim\.)[\w.+]*\{([^}]*)\}", text):
        yield from (n.split(" as ")[-1].strip() for n in m[1].split(","))


OPERATORS = {"+": "⊕", "-": "⊖", "*": "⊗", "/": "⊘"}
OWN_FORMULAS = re.compile(r"(?m)^use Rattle\.equations\.specs\.Formula\.\{[^}]*◌\+◌[^}]*\}|^pub data Term : ")


def formulas(text):
    """The text with the operators of formulas respelled: in a file that declares or imports them, and where they stand behind `F.`."""
    for old, new in OPERATORS.items():
        text = text.replace(f"F.◌{old}◌", f"F.◌{new}◌")
    if not OWN_FORMULAS.search(text):
        return text
    lines = text.split("\n")
    for i, line in enumerate(lines):
        if line.lstrip().startswith("--") or re.match(r"use (?!Rattle\.equations\.specs\.Formula\.)", line):
            continue
        for old, new in OPERATORS.items():
            line = line.replace(f"◌{old}◌", f"◌{new}◌").replace(f" {old} ", f" {new} ")
        lines[i] = line
    return "\n".join(lines)


def main(argv):
    root = os.getcwd()
    shared, own, bad = {}, {}, []
    for path in files(root, ".antt"):
        for name, seen, is_type in declared(path, read(path)):
            where = shared if seen else own.setdefault(path, {})
            new = spelled(name, is_type)
            if where.setdefault(name, new) != new:
                bad.append(f"{name} is a type in one place and none in another")
    by_new = {}
    for old, new in shared.items():
        if by_new.setdefault(new, old) != old:
            bad.append(f"{old} and {by_new[new]} would both be {new}")
    for path in files(root, (".antt", ".rt")):
        text = read(path)
        library = set(imported(text))
        for old, new in {**shared, **own.get(path, {})}.items():
            if old in library:
                continue
            here = re.search(rf"(?<![^{EDGE}]){re.escape(old)}(?![^{EDGE}])", text)
            if here and (new in library or re.search(rf"(?<![^{EDGE}]){re.escape(new)}(?![^{EDGE}])", text)):
                bad.append(f"{os.path.relpath(path, root)} has both {old} and {new}")
    if "--list" in argv:
        for old, new in sorted(shared.items()):
            print(old, new)
        for path, names in own.items():
            for old, new in sorted(names.items()):
                print(old, new, os.path.relpath(path, root))
    print("\n".join(bad), end="\n" if bad else "")
    if bad or "--list" in argv:
        return int(bool(bad))
    for path in files(root, (".antt", ".rt", ".edit")):
        text = read(path)
        library = set(imported(text))
        names = {o: n for o, n in {**shared, **own.get(path, {})}.items() if o not in library}
        new = turned(text, names)
        if path.endswith(".antt"):
            new = formulas(new)
        if new != text:
            with open(path, "w", encoding="utf-8") as f:
                f.write(new)
    return 0


if __name__ == "__main__":
    raise SystemExit(main(sys.argv[1:]))
