"""What a rule lacks: definitions that no contract reaches, or no example, each with what stands in its place."""

from __future__ import annotations

import re
from dataclasses import dataclass
from functools import cached_property

from addresses import Addresses
from code_index import is_spec
from documents import source_link
from evidence import Evidence
from examples import in_examples
from names import Key
from rule_pages import blocks
from rules import Section, citations

THEOREMS = "Theorems speak of it, and no function computes it"
STATEMENTS = "A record of statements over definitions that examples pin"
# Why a rule cites no definition.
PROVED = "Tells of theorems or of worked examples, and names their file"
OPENS = "Opens its section, whose other rules cite the definitions"
FOLLOWS = "Tells what the definitions of its section come to"
NAMED_FILE = re.compile(r"`[^`]*(?:/proofs|\.antt)`")
PAGE = "lacks.html"
INNER = "Inner functions ask it of each other or are held to it on the way; no export's contract rests on it"


@dataclass(frozen=True)
class Lack:
    """Definitions that lack the same, and why."""

    keys: tuple[Key, ...]
    what: str
    why: str


class Lacks:
    """Looks at every definition that the rules cite."""

    def __init__(self, evidence: Evidence, addresses: Addresses) -> None:
        self.evidence, self.addresses, self.code = evidence, addresses, evidence.code

    def has_function(self, key: Key) -> bool:
        """Whether a contract cites a definition, or one that rests on it."""
        return bool(self.evidence.functions.get(key) or self.evidence.through(key, self.evidence.functions))

    def has_pin(self, key: Key) -> bool:
        """Whether an example pins a definition, or one that rests on it."""
        return bool(self.evidence.pins.get(key) or self.evidence.through(key, self.evidence.pins))

    @cached_property
    def of_exports(self) -> set[Key]:
        """The definitions that the exports' contracts rest on."""
        waiting = [key for one in self.code.functions if one.exported for key in self.code.contracts[one.full]]
        found: set[Key] = set()
        while waiting:
            key = waiting.pop()
            if key not in found and is_spec(key):
                found.add(key)
                waiting += self.code.item_cites[key]
        return found

    @cached_property
    def of_theorems(self) -> set[Key]:
        """The definitions that proofs speak of."""
        return {cited for key, found in self.code.item_cites.items() if not is_spec(key) for cited in found}

    def why_no_pin(self, key: Key) -> str:
        """Why no example reaches a definition, or nothing where there is no reason."""
        parts = [one for one in self.code.item_cites[key] if one in self.addresses.rules.home]
        if self.code.items[key].kind == "record" and parts and all(map(self.has_pin, parts)):
            return STATEMENTS
        return INNER if key not in self.of_exports else ""

    def of(self, key: Key) -> tuple[str, str] | None:
        """What a definition lacks, and why."""
        function, pin = self.has_function(key), self.has_pin(key)
        if (function and pin) or in_examples(self.code, key):
            return None
        if function:
            return "a pin", self.why_no_pin(key)
        return "a function" if pin else "a function and a pin", THEOREMS if key in self.of_theorems else ""

    def all(self) -> list[Lack]:
        """What is lacking; what lacks the same for the same reason stands together."""
        groups: dict[tuple[str, str], list[Key]] = {}
        for key in self.addresses.rules.home:
            found = self.of(key)
            if found is not None:
                groups.setdefault(found, []).append(key)
        return [Lack(tuple(keys), what, why) for (what, why), keys in groups.items()]

    def undefined(self) -> dict[str, list[tuple[Section, str]]]:
        """The rules that cite no definition, by the reason: paragraphs, items of lists and rows of tables."""
        found: dict[str, list[tuple[Section, str]]] = {}
        for section in self.addresses.rules.sections:
            for at, block in enumerate(blocks(section.text)):
                rules = block.splitlines()[2:] if block.startswith("|") else [block]
                for rule in rules:
                    if rule.strip() and not citations(rule):
                        why = PROVED if NAMED_FILE.search(rule) else OPENS if at == 0 else FOLLOWS
                        found.setdefault(why, []).append((section, rule))
        return found

    def definitions_table(self) -> str:
        """What lacks a function or a pin."""
        lines = ["| Lack | Why | Definitions |", "|---|---|---|"]
        for lack in self.all():
            links = [f"[`{shown(key)}`]({source_link(self.addresses.item(key), PAGE)})" for key in lack.keys]
            lines.append(f"| {lack.what} | {lack.why} | {', '.join(links)} |")
        return "\n".join(lines)

    def rules_table(self) -> str:
        """What lacks a definition."""
        lines = ["| Lack | Why | Rules, by their first words |", "|---|---|---|"]
        for why, rules in self.undefined().items():
            links = [f"[{first_words(rule)}]({source_link(section.page, PAGE)})" for section, rule in rules]
            lines.append(f"| a definition | {why} | {'; '.join(links)} |")
        return "\n".join(lines)

    def page(self) -> str:
        """The page: two tables."""
        count = sum(not in_examples(self.code, key) for key in self.addresses.rules.home)
        lacking = sum(len(lack.keys) for lack in self.all())
        opening = (
            f"The rules cite {count} definitions beside those of worked examples. {count - lacking} of them have a function whose "
            "contract cites them, themselves or through a definition that rests on them, and in the same way an example that pins "
            "them. The others:"
        )
        second = "Every rule cites a definition, but for these:"
        return f"# What lacks something\n\n{opening}\n\n{self.definitions_table()}\n\n{second}\n\n{self.rules_table()}\n"


def shown(key: Key) -> str:
    """A definition as the rules cite it."""
    return f"{key[1].rsplit('.', 1)[1]}.{key[2]}"


def first_words(rule: str) -> str:
    """The first words of a rule, without its marks."""
    plain = re.sub(r"[`*|\[\]]", "", re.sub(r"^(?:- |\d+\. |\| )", "", rule))
    return " ".join(plain.split()[:5]).rstrip(".,:;") + " .."
