"""The promises: each line of the list with its field, its claim, its theorem, and the way down to the exports."""

from __future__ import annotations

import re
from collections import deque
from dataclasses import dataclass
from functools import cached_property
from html import escape

from addresses import Addresses
from antt import Item
from code_index import Code
from colours import block
from documents import link, with_links
from markdown_text import tables
from names import COMMENT, TOKEN, Key
from panels import Panels
from rattle import Function
from rule_pages import mark

FIELD = re.compile(r"((?:^  --.*\n)*)^  pub (p(\d+)_\S+) : (.*)$", re.M)
LINE = re.compile(r"^- \*\*P(\d+) (.+?)\.\*\* ", re.M)


@dataclass(frozen=True)
class Promise:
    """A promise: its line in the list, and its field in the record."""

    number: int
    title: str
    text: str
    field: str
    comment: str
    claim: str
    proof: str


class Promises:
    """The list, the record and its proof."""

    def __init__(self, code: Code, addresses: Addresses, panels: Panels) -> None:
        self.code, self.addresses, self.panels = code, addresses, panels
        self.record = next(item for item in code.items.values() if item.kind == "record" and FIELD.search(item.body))
        proved = re.compile(rf"→ {self.record.name}\b[^→]*$")
        self.theorem = next(
            item
            for item in code.items.values()
            if item.path == self.record.path and item.kind == "definition" and proved.search(item.signature)
        )

    @cached_property
    def document(self) -> str:
        """The document with a list of promises that has as many lines as the record has fields."""
        count = len(FIELD.findall(self.record.body))
        paths = self.code.repository.paths("*.md") + self.code.repository.paths("docs/*.md")
        return next(path for path in paths if len(LINE.findall(self.code.repository.text(path))) == count)

    def all(self) -> list[Promise]:
        """The promises in their order."""
        text = self.code.repository.text(self.document)
        lines = {int(found[1]): found for found in LINE.finditer(text)}
        promises: list[Promise] = []
        for field in FIELD.finditer(self.record.body):
            line = lines[int(field[3])]
            told = text[line.end() : text.index("\n", line.end())]
            proof = re.search(rf"^ *{re.escape(field[2])} = (.*?);?$", self.theorem.body, re.M)
            comment = " ".join(one.strip(" -") for one in field[1].splitlines())
            promises.append(Promise(int(field[3]), line[1 + 1], told, field[2], comment, field[4], proof[1] if proof else ""))
        return promises

    def page(self) -> str:
        """The page's Markdown."""
        path = self.record.path
        source = link(f"[{path}]", self.addresses.source(path, self.record.line), "promises.html")
        opening = (
            f"Each line of the list is one field of one record, {source}; the theorem `{self.theorem.name}` proves all of them. "
            "Below each stand the field, what it claims, the theorem that proves it, and the way from the field down to the "
            "functions that are exported."
        )
        parts = ["# Promises", opening]
        for one in self.all():
            parts.append(f"## P{one.number} {one.title}")
            parts.append(with_links(one.text, self.document, "promises.html", self.addresses))
            parts.append(mark("promise", [str(one.number)]))
        return "\n\n".join(parts) + "\n"

    def html(self, number: int) -> str:
        """What stands behind a promise."""
        one = self.all()[number - 1]
        path = self.record.path
        known = self.panels.link(path, "promises.html")
        parts = ["<p><b>The field</b></p>", block(f"-- {one.comment}\n{one.field} : {one.claim}", known)]
        claims = [key for key in self.code.cited_in(path, one.claim)]
        theorems = [key for key in self.code.cited_in(path, one.proof)]
        parts += [self.shown("What it claims", claims), self.shown("Proved by", theorems)]
        parts.append(self.rests_on(number))
        parts.append(self.chains(one))
        return f'<div class="promise">{"".join(parts)}</div>'

    def shown(self, title: str, keys: list[Key]) -> str:
        """Items with their first sentences and statements."""
        items = [self.code.items[key] for key in keys]
        shown = [
            self.panels.shown_theorem(item, "promises.html") for item in items if item.public or item.path == self.record.path
        ]
        return self.panels.part(title, shown, "the field's own words")

    def rests_on(self, number: int) -> str:
        """The files that it is proved from: the cell of a document's table of promises."""
        for path in self.code.repository.paths("docs/*.md"):
            for table in tables(self.code.repository.text(path)):
                if table.head[0] == "Promise":
                    row = next((row for row in table.rows if row[0].split()[0] == f"P{number}"), None)
                    if row is not None:
                        cells = [f"{head}: {cell}" for head, cell in zip(table.head[1:], row[1:])]
                        return self.panels.part(
                            "Where it stands", [self.panels.words(cell, "promises.html") for cell in cells], ""
                        )
        return ""

    # ── The way to the exports ──

    def functions_in(self, item: Item) -> list[Function]:
        """The functions whose contracts or theorems an item names, by its file's names for their modules."""
        return self.functions_of(item.path, item.code)

    def functions_of(self, path: str, text: str) -> list[Function]:
        """The functions whose modules a text names."""
        scope = self.code.scopes[path]
        found: dict[str, Function] = {}
        for token in TOKEN.findall(COMMENT.sub("", text)):
            alias, dot, _ = token.partition(".")
            module = scope.aliases.get(alias) if dot else None
            parts = module[1].split(".")[1:] if module else []
            for end in range(len(parts), 0, -1):
                function = self.code.function.get("::".join((module[0], *parts[:end]))) if module else None
                if function is not None:
                    found[function.full] = function
        return list(found.values())

    @cached_property
    def exports(self) -> dict[str, Function]:
        """The export of each entry, and of each export itself: a field that names both stands beside the promises."""
        found = {one.full: one for one in self.code.functions if one.exported}
        for item in self.code.items.values():
            for line in item.body.splitlines() if item.path == self.record.path and item.kind == "record" else []:
                named = self.functions_of(item.path, line)
                exported = [one for one in named if one.exported]
                if len(exported) == 1:
                    found.update({one.full: exported[0] for one in named})
        return found

    def ways(self, one: Promise) -> dict[str, list[Key]]:
        """The shortest ways from a field to functions: by a function's name the items between."""
        ways: dict[str, list[Key]] = {}
        waiting = deque([[key] for key in self.code.cited_in(self.record.path, one.claim)])
        for function in self.functions_of(self.record.path, one.claim):
            ways.setdefault(function.full, [])
        seen = {way[0] for way in waiting}
        while waiting:
            way = waiting.popleft()
            for function in self.functions_in(self.code.items[way[-1]]):
                ways.setdefault(function.full, way)
            for key in self.code.item_cites[way[-1]]:
                if key not in seen:
                    seen.add(key)
                    waiting.append([*way, key])
        return ways

    def chains(self, one: Promise) -> str:
        """The ways to the exports, those with the same items between together."""
        groups: dict[tuple[Key, ...], list[Function]] = {}
        ways = self.ways(one)
        for name, way in ways.items():
            export = self.exports.get(name)
            if export is not None and (export.full == name or export.full not in ways):
                groups.setdefault(tuple(way), []).append(self.code.function[name])
        lines: list[str] = []
        for between, functions in groups.items():
            steps = [f"<code>{escape(one.field)}</code>"] + [self.step(key) for key in between]
            lines.append(" → ".join(steps) + " → " + ", ".join(self.ended(function) for function in functions))
        return self.panels.part("The way down to the exports", lines, "none")

    def step(self, key: Key) -> str:
        """An item on the way, as a link."""
        return self.panels.anchor(f"<code>{escape(key[2])}</code>", self.addresses.item(key), "promises.html")

    def ended(self, function: Function) -> str:
        """A function at the end of a way: an export, or an entry with its export."""
        export = self.exports[function.full]
        names = [export] if export == function else [function, export]
        links = [
            self.panels.anchor(f"<code>{escape(one.name)}</code>", self.addresses.function(one), "promises.html") for one in names
        ]
        return " (exported as ".join(links) + (")" if len(links) > 1 else "")
