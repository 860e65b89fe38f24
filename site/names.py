"""Which item a name in a file means: what the file's `use` lines bring in, and what it defines itself."""

from __future__ import annotations

import re
from dataclasses import dataclass

USE = re.compile(r"^\s*(?:pub |ghost )*use (?P<path>[^\s;{]+?)(?:\.\{(?P<names>[^}]*)\}| as (?P<alias>[^\s;]+))?;?\s*$", re.M)
TOKEN = re.compile(r"[^\s(){};,\"]+")
BOUND = re.compile(r"λ ([^.]+)\.|[({]([^:(){}=]+) : |\blet (\S+) =")
COMMENT = re.compile(r"(?<!\S)--[^\n]*|//[^\n]*|^\s*unfolding [^\n]*", re.M)

# Names of fields where they are declared or given, which are no citations.
FIELD = re.compile(r"(?<=pub )[^\s:(){}]+(?= : )|(?<=[{;])(\s*)[^\s={};]+(?= = )")

# A module: the crate, and the path below it with dots, as `specs.V0`.
Module = tuple[str, str]
# An item: its module and its name.
Key = tuple[str, str, str]


def module_of(path: str) -> Module:
    """The module that an antt file is."""
    _, crate, inner = path.removesuffix(".antt").split("/", 2)
    return crate, inner.replace("/", ".")


def named_module(path: str) -> Module | None:
    """The module of a crate that a `use` line names: `Rattle.rules.specs.V0` is `specs.V0` of `rules`. The library has none."""
    if not path.startswith("Rattle.") or path.startswith("Rattle.std."):
        return None
    crate, _, inner = path.removeprefix("Rattle.").partition(".")
    return crate, inner


@dataclass
class Scope:
    """The names that a file knows."""

    names: dict[str, Key]
    aliases: dict[str, Module]

    def key(self, token: str) -> Key | None:
        """The item that a word of the file's code means."""
        if token.startswith("."):
            return None
        word = token.rstrip(".")
        first, _, rest = word.partition(".")
        if rest and first in self.aliases:
            module = self.aliases[first]
            return (*module, rest.split(".")[0])
        # What follows the dot otherwise is a field.
        return self.names.get(first)


def scope_of(text: str, own: Module | None = None, defined: list[str] | None = None) -> Scope:
    """The names that a file's `use` lines bring in, and those that it defines."""
    scope = Scope({}, {})
    for used in USE.finditer(text):
        module = named_module(used["path"])
        if module is None:
            continue
        if used["alias"]:
            scope.aliases[used["alias"]] = module
        for word in (used["names"] or "").split(","):
            name, _, alias = word.strip().partition(" as ")
            if name:
                scope.names[(alias or name).strip("◌ ")] = (*module, name)
    if own is not None:
        scope.names.update({name.strip("◌"): (*own, name) for name in defined or []})
    return scope


def bound_in(text: str) -> set[str]:
    """The names that a text binds itself."""
    groups = (word for found in BOUND.finditer(text) for word in found.groups() if word)
    return {word for group in groups for word in group.split()}


def cited(text: str, scope: Scope, known: frozenset[str] = frozenset()) -> list[Key]:
    """The items that a text cites, each once, in their order; names that are known there are none."""
    code = FIELD.sub(" ", COMMENT.sub("", text))
    bound = bound_in(code) | known
    keys = (scope.key(token) for token in TOKEN.findall(code) if token.partition(".")[0] not in bound)
    return list(dict.fromkeys(key for key in keys if key is not None))
