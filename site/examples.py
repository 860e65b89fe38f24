"""Worked examples, which hold by computing: elements of lists of `Example`, and claims whose proof is `refl` alone."""

from __future__ import annotations

import re
from dataclasses import dataclass

from antt import Item, indent_of
from code_index import Code, is_spec
from names import Key

LIST = re.compile(r"[:→] List (\w+)\s*$")


@dataclass(frozen=True)
class Example:
    """A claim, or elements of a list under one comment; and the definitions that it pins."""

    path: str
    line: int
    comment: str
    code: str
    pins: frozenset[Key]


def is_claim(item: Item) -> bool:
    """Whether an item is proved by computing alone, for no arguments."""
    return item.path.split("/")[2] == "proofs" and item.body.splitlines()[-1:] == [f"{item.name} = refl"]


def pinned(code: Code, path: str, text: str) -> set[Key]:
    """The definitions that a text of an example's file rests on, seen through the file's own shorthands."""
    found: set[Key] = set()
    waiting = code.cited_in(path, text)
    seen: set[Key] = set()
    while waiting:
        key = waiting.pop()
        if key in seen:
            continue
        seen.add(key)
        if code.items[key].path == path:
            waiting += code.item_cites[key]
        elif is_spec(key):
            found.add(key)
    return found


def elements(item: Item) -> list[tuple[int, str, str]]:
    """The elements of a list, those under one comment together: their first line, the comment, their text."""
    groups: list[tuple[int, list[str], list[str]]] = [(item.line, [item.comment], [])]
    first = item.line + item.signature.count("\n") + 1
    for at, line in enumerate(item.body.splitlines(), first):
        if line.lstrip().startswith("--") and indent_of(line) > 0:
            words = line.strip().removeprefix("--").strip()
            if groups[-1][2]:
                groups.append((at, [words], []))
            else:
                groups[-1][1].append(words)
        elif line.strip() not in (f"{item.name} =", "∷ []"):
            groups[-1][2].append(line)
    return [(at, "\n".join(words).strip(), "\n".join(lines)) for at, words, lines in groups if lines]


def examples(code: Code) -> list[Example]:
    """All worked examples."""
    found: list[Example] = []
    for key, item in code.items.items():
        if is_claim(item):
            pins = pinned(code, item.path, item.signature)
            found.append(Example(item.path, item.line, item.comment, item.signature, frozenset(pins)))
        elif kind := example_kind(code, item):
            common = of_all(code, item.path, kind)
            for line, comment, text in elements(item):
                pins = common | pinned(code, item.path, text)
                found.append(Example(item.path, line, comment, text, frozenset(pins)))
    return [example for example in found if example.pins]


def example_kind(code: Code, item: Item) -> str:
    """The record that a list's elements are, if it is a list of examples: an `Example`, or a record of its own file."""
    found = LIST.search(item.signature)
    if found is None or not item.body:
        return ""
    own = code.scopes[item.path].names.get(found[1])
    record = code.items.get(own) if own else None
    fits = record is not None and record.kind == "record" and (record.name == "Example" or record.path == item.path)
    return found[1] if fits and ("→" not in item.signature or found[1] == "Example") else ""


def in_examples(code: Code, key: Key) -> bool:
    """Whether a definition stands in a file of worked examples."""
    path = code.items[key].path
    return any(item.path == path and example_kind(code, item) for item in code.items.values())


def of_all(code: Code, path: str, kind: str) -> set[Key]:
    """What every element of a file's lists is held to: the definitions in its functions of one element."""
    own = [item for item in code.items.values() if item.path == path and f": {kind} → " in item.signature]
    return {key for item in own for key in pinned(code, path, item.body)}
