"""What stands behind each definition: functions, theorems, examples, wrong edits."""

from __future__ import annotations

from collections import deque
from functools import cached_property

from code_index import Code, is_spec
from edits import Edit, edits
from examples import Example, examples, is_claim
from names import Key
from rattle import Function


class Evidence:
    """For each definition: what cites it itself, and through which definitions it is reached otherwise."""

    def __init__(self, code: Code) -> None:
        self.code = code
        self.examples = examples(code)
        self.edits = edits(code)

    @cached_property
    def functions(self) -> dict[Key, list[Function]]:
        """The functions whose contracts cite a definition."""
        found: dict[Key, list[Function]] = {}
        for function in self.code.functions:
            for key in self.code.contracts[function.full]:
                found.setdefault(key, []).append(function)
        return found

    @cached_property
    def theorems(self) -> dict[Key, list[Key]]:
        """The theorems and claims whose statements cite a definition: public items of proofs/ that are no examples."""
        found: dict[Key, list[Key]] = {}
        for key, item in self.code.items.items():
            if is_spec(key) or not item.public or is_claim(item):
                continue
            for cited in self.code.cited_in(item.path, item.signature if item.kind == "definition" else item.code):
                if cited != key:
                    found.setdefault(cited, []).append(key)
        return found

    @cached_property
    def pins(self) -> dict[Key, list[Example]]:
        """The examples that pin a definition."""
        found: dict[Key, list[Example]] = {}
        for example in self.examples:
            for key in example.pins:
                found.setdefault(key, []).append(example)
        return found

    @cached_property
    def broken(self) -> dict[Key, list[Edit]]:
        """The wrong edits that break a definition: of it, and of functions and theorems that are held to it."""
        found: dict[Key, list[Edit]] = {}
        for edit in sorted(self.edits, key=lambda edit: not edit.in_gate):
            for key in sorted(edit.changed | edit.held_to):
                found.setdefault(key, []).append(edit)
        return {key: sorted(list_, key=lambda edit: key not in edit.changed) for key, list_ in found.items()}

    def through(self, key: Key, has: dict[Key, list[Function]] | dict[Key, list[Example]]) -> list[Key]:
        """The nearest definitions that rest on this one and have what it lacks; none where there is no such."""
        seen, waiting = {key}, deque([key])
        while waiting:
            level = list(waiting)
            waiting.clear()
            found = [user for one in level for user in self.code.users.get(one, []) if user not in seen]
            reached = [user for user in dict.fromkeys(found) if has.get(user)]
            if reached:
                return reached
            seen.update(found)
            waiting.extend(dict.fromkeys(found))
        return []
