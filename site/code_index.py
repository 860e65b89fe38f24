"""All that crates hold, by name: items of specs/ and proofs/, functions of src/, and which cites which."""

from __future__ import annotations

import re
from functools import cached_property

from antt import Item, items
from names import Key, Scope, cited, module_of, scope_of
from rattle import Function, functions
from repository import Repository, crate_of


# A function's parameters and the words that an impl gives a meaning to; a clause with a name of its own.
NAMED = re.compile(r"\w+(?=: )|(?<=ghost )\w+")
CLAUSE = re.compile(r"^(\s*(?:requires|ensures)) \w+(?= \{)", re.M)


def is_spec(key: Key) -> bool:
    """Whether an item is a definition of specs/."""
    return key[1].startswith("specs.")


def is_theorem_file(path: str) -> bool:
    """Whether a file has theorems of its own: folders of one function's proof have its name, in small letters."""
    return all(part[:1].isupper() for part in path.split("/proofs/")[1].split("/"))


class Code:
    """The items and functions of all crates."""

    def __init__(self, repository: Repository) -> None:
        self.repository = repository
        self.items: dict[Key, Item] = {}
        self.scopes: dict[str, Scope] = {}
        for path in repository.paths("crates/*/specs/**/*.antt") + repository.paths("crates/*/proofs/**/*.antt"):
            if "/proofs/" in path and not is_theorem_file(path):
                continue
            text = repository.text(path)
            found = items(path, text)
            self.scopes[path] = scope_of(text, module_of(path), [item.name for item in found])
            self.items.update({(*module_of(path), item.name): item for item in found})
        self.functions: list[Function] = []
        for path in repository.paths("crates/*/src/**/*.rt"):
            text = repository.text(path)
            self.scopes[path] = scope_of(text)
            self.functions += functions(path, text)

    def cited_in(self, path: str, text: str) -> list[Key]:
        """The items that a part of a file cites."""
        return [key for key in cited(text, self.scopes[path]) if key in self.items]

    def cited_by(self, function: Function) -> list[Key]:
        """The items that a function's contract cites; what itself or its law names is none."""
        law = function.law.signature if function.law else ""
        known = frozenset(["result", *NAMED.findall(f"{function.signature}\n{law}\n{function.contract}")])
        clauses = CLAUSE.sub(r"\1", function.contract)
        return [key for key in cited(clauses, self.scopes[function.path], known) if key in self.items]

    @cached_property
    def item_cites(self) -> dict[Key, list[Key]]:
        """The items that each item cites, in its signature or its body."""
        cites = ((key, self.cited_in(item.path, item.code)) for key, item in self.items.items())
        return {key: [other for other in found if other != key] for key, found in cites}

    @cached_property
    def contracts(self) -> dict[str, list[Key]]:
        """The items that each function's contract cites."""
        return {function.full: self.cited_by(function) for function in self.functions}

    @cached_property
    def function(self) -> dict[str, Function]:
        """The functions by their full names."""
        return {function.full: function for function in self.functions}

    def definitions_of(self, crate: str) -> list[Key]:
        """The public definitions of a crate's specs/."""
        return [key for key, item in self.items.items() if key[0] == crate and is_spec(key) and item.public]

    @cached_property
    def users(self) -> dict[Key, list[Key]]:
        """The definitions of specs/ that cite each definition."""
        users: dict[Key, list[Key]] = {}
        for key, found in self.item_cites.items():
            for other in found if is_spec(key) else []:
                users.setdefault(other, []).append(key)
        return users

    def item_at(self, path: str, line: int) -> Key | None:
        """The item that a line of a file belongs to."""
        module = module_of(path)
        inside = (key for key, item in self.items.items() if key[:2] == module and item.line <= line <= item.last)
        return next(inside, None)

    def function_at(self, path: str, line: int) -> Function | None:
        """The function that a line of a file belongs to."""
        inside = (one for one in self.functions if one.path == path and one.line <= line <= one.last)
        return next(inside, None)

    def mentioning(self, name: str, path: str = "") -> list[Function]:
        """The functions whose lines mention a name, in a file or in all."""
        word = re.compile(rf"\b{name}\b")
        places = ((one, self.repository.text(one.path)) for one in self.functions if one.path == path or not path)
        return [
            one for one, text in places if one.name != name and word.search("\n".join(text.splitlines()[one.line - 1 : one.last]))
        ]

    def crate_functions(self, crate: str) -> list[Function]:
        """The functions of a crate."""
        return [function for function in self.functions if crate_of(function.path) == crate]
