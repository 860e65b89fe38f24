"""Wrong edits, which the proofs refuse: what each changes, and which definitions are at stake there."""

from __future__ import annotations

import re
from dataclasses import dataclass

from code_index import Code, is_spec
from names import Key
from repository import crate_of


@dataclass(frozen=True)
class Change:
    """A line of a file, what stands there, and what takes its place."""

    path: str
    line: int
    old: str
    new: str


@dataclass(frozen=True)
class Edit:
    """A wrong edit: a definition itself is changed, or a function or a theorem that is held to definitions."""

    path: str
    name: str
    in_gate: bool
    comment: str
    changes: tuple[Change, ...]
    changed: frozenset[Key]
    held_to: frozenset[Key]


def read_changes(crate: str, text: str, code: Code) -> list[Change]:
    """The changes that an edit's lines tell."""
    changes: list[Change] = []
    path = old = ""
    for line in text.splitlines():
        word, _, rest = line.partition(": ")
        if word == "file":
            path = f"crates/{crate}/{rest.strip()}"
        elif word == "old":
            old = rest
        elif word == "new":
            before = code.repository.text(path).partition(old)[0]
            changes.append(Change(path, before.count("\n") + 1, old, rest))
    return changes


def held_by(code: Code, change: Change) -> set[Key]:
    """The definitions that code is held to: by the function's own contract, or else by those of the functions that call it."""
    function = code.function_at(change.path, change.line)
    constant = re.search(r"\b(?:const|static) (\w+)", change.old)
    waiting = [function] if function else code.mentioning(constant[1], change.path) if constant else []
    seen: set[str] = set()
    while waiting:
        found = {key for one in waiting for key in code.contracts[one.full] if is_spec(key)}
        if found:
            return found
        seen.update(one.full for one in waiting)
        callers = {one.full: one for callee in waiting for one in code.mentioning(callee.called)}
        waiting = [one for name, one in callers.items() if name not in seen]
    return set()


def at_stake(code: Code, change: Change) -> tuple[set[Key], set[Key]]:
    """The definition that a change alters, or those that the function or theorem there is held to."""
    if change.path.endswith(".rt"):
        return set(), held_by(code, change)
    key = code.item_at(change.path, change.line)
    if key is None:
        return set(), set()
    if is_spec(key):
        return {key}, set()
    item = code.items[key]
    cited = code.cited_in(change.path, item.signature) if item.kind == "definition" else []
    return set(), {key for key in cited or code.item_cites[key] if is_spec(key)}


def edits(code: Code) -> list[Edit]:
    """All wrong edits: those of the gate, and those beside it in must-fail-more."""
    found: list[Edit] = []
    for path in code.repository.paths("crates/*/must-fail*/*.edit"):
        text = code.repository.text(path)
        changes = read_changes(crate_of(path), text, code)
        stakes = [at_stake(code, change) for change in changes]
        comment = "\n".join(line[1:].strip() for line in text.splitlines() if line.startswith("#"))
        found.append(
            Edit(
                path=path,
                name=path.rsplit("/", 1)[1].removesuffix(".edit"),
                in_gate="/must-fail/" in path,
                comment=comment,
                changes=tuple(changes),
                changed=frozenset(key for changed, _ in stakes for key in changed),
                held_to=frozenset(key for _, held in stakes for key in held),
            )
        )
    return found
