#!/usr/bin/env python3
"""Brings the repository's own definitions and lemmas to snake case: `block-bits` to `block_bits`.

usage: tools/snake_names.py        in the repository, after port.py: rewrites crates/ in place

A name is turned where specs/ or a lemma file of proofs/ declares it; the names of a function's goals keep their dashes. A name that
would fall together with another, or with a name of the code, gets the ending `_is` or `_law`. A name that a library also has, where
a file imports it from there, stays.
"""

import collections
import os
import re

DECLARED = re.compile(r"^\s*(?:(?:abbrev|unfoldable|pub|data|record|opaque)\s+)*([^\s:(){}]+)(?:\s+[({][^:]*[:].*[)}])?\s+:(?=\s)")
WORD = r"[\w'₀-₉◌⁺⁻-]"
TOKEN = re.compile(r"(?<!" + WORD + r")[a-zA-Zℕℤ][\w'₀-₉◌⁺⁻-]*")
PROOF = re.compile(r"/proofs/.+/(Proof|Answers|Invariants)\.antt$")


def files(*ends):
    for folder, dirs, names in os.walk("crates"):
        dirs[:] = sorted(d for d in dirs if d != "out")
        for name in sorted(names):
            if name.endswith(ends):
                yield os.path.join(folder, name)


def read(path):
    with open(path, encoding="utf-8") as f:
        return f.read()


def declared():
    """The names with a dash that are the repository's own, and all own names."""
    dashed, own = set(), set()
    for path in files(".antt"):
        if PROOF.search(path):
            continue
        for line in read(path).splitlines():
            m = DECLARED.match(line)
            if m:
                own.add(m.group(1))
                if "-" in m.group(1):
                    dashed.add(m.group(1))
    return dashed, own


def imported():
    """The names that files import from libraries."""
    found = set()
    for path in files(".antt", ".rt"):
        for m in re.finditer(r"^\s*(?:ghost )?(?:pub )?use ([\w.'-]+)\.\{([^}]*)\}", read(path), re.M):
            if not re.match(r"Rattle\.(?!std|core|io|libc|os)", m.group(1)):
                found.update(w.strip() for w in m.group(2).split(","))
    return found


def renamed(dashed, own):
    library = imported()
    table, taken = {}, set(own) | library
    for name in sorted(dashed):
        if name in library:
            continue
        new = name.replace("-", "_")
        for ending in ("", "_is", "_law", "_fact"):
            if new + ending not in taken:
                new += ending
                break
        else:
            raise SystemExit(f"no name for {name}")
        taken.add(new)
        table[name] = new
    return table


def turn(text, table):
    def new(m):
        before = text[max(0, m.start() - 4):m.start()]
        if before == "tie." or before.endswith("Tie."):
            return m.group(0)
        return table.get(m.group(0), m.group(0))

    return TOKEN.sub(new, text)


def main():
    dashed, own = declared()
    table = renamed(dashed, own)
    for path in files(".antt", ".rt", ".edit"):
        text = read(path)
        to = turn(text, table)
        if to != text:
            with open(path, "w", encoding="utf-8") as f:
                f.write(to)
    os.makedirs("tools", exist_ok=True)
    with open("tools/snake_names.tsv", "w", encoding="utf-8") as f:
        f.writelines(f"{a}\t{b}\n" for a, b in sorted(table.items()))
    print(f"{len(table)} names, {len(dashed) - len(table)} stay")
    for a, b in sorted(table.items()):
        if b != a.replace("-", "_"):
            print(f"{a}\t{b}")


main()
