"""What opens in place: a definition with all that stands behind it, and a function with its contract."""

from __future__ import annotations

from html import escape

from addresses import Addresses, anchor_of, function_anchor, relative
from antt import Item, first_sentence
from code_index import Code
from colours import Link, block, words
from edits import Edit
from evidence import Evidence
from examples import Example
from names import Key
from rattle import Function
from samsung import Samsung

# How many theorems, examples and wrong edits are shown whole; the others are links.
THEOREMS, PINS, EDITS = 8, 3, 8


class Panels:
    """Makes panels for a page."""

    def __init__(self, code: Code, evidence: Evidence, addresses: Addresses, samsung: Samsung) -> None:
        self.code, self.evidence, self.addresses, self.samsung = code, evidence, addresses, samsung

    def link(self, path: str, page: str, own: Key | None = None) -> Link:
        """What a word in a file's code links to, seen from a page."""
        scope = self.code.scopes[path]

        def to(word: str) -> str | None:
            key = scope.key(word)
            known = key is not None and key != own and key in self.code.items
            return relative(self.addresses.item(key), page) if key is not None and known else None

        return to

    def anchor(self, text: str, to: str, page: str) -> str:
        """A link."""
        return f'<a href="{escape(relative(to, page))}">{text}</a>'

    def place(self, path: str, line: int, page: str) -> str:
        """A link to a line of a file."""
        return f'<p class="place">{self.anchor(f"{escape(path)}, line {line}", self.addresses.source(path, line), page)}</p>'

    def words(self, text: str, page: str) -> str:
        """A sentence of a document; files that it names are links."""
        parts = words(text).split("<code>")
        for at, part in enumerate(parts[1:], 1):
            path, _, rest = part.partition("</code>")
            whole = f"<code>{path}</code>"
            if (self.code.repository.top / path).is_file():
                whole = self.anchor(whole, self.addresses.source(path), page)
            parts[at] = whole + rest
        return "".join(parts)

    def definition(self, key: Key, page: str) -> str:
        """A definition with its comment, and under it what stands behind it."""
        item = self.code.items[key]
        name = f"{key[1].rsplit('.', 1)[1]}.{key[2]}"
        parts = [
            comment_of(item.comment) + block(item.code, self.link(item.path, page, key)),
            self.place(item.path, item.line, page),
            self.functions_of(key, page),
            self.theorems_of(key, page),
            self.pins_of(key, page),
            self.edits_of(key, page),
            self.samsung_of(key, page),
        ]
        lead = f"<code>{escape(name)}</code> <span>{words(first_sentence(item.comment))}</span>"
        return f'<details class="panel" id="{escape(anchor_of(key))}"><summary>{lead}</summary>{"".join(parts)}</details>'

    def part(self, title: str, inner: list[str], nothing: str) -> str:
        """A titled list of a panel, or what is said where it is empty."""
        if not inner:
            return f'<p class="none"><b>{title}:</b> {nothing}</p>'
        return f'<p class="part"><b>{title}</b></p><ul>{"".join(f"<li>{one}</li>" for one in inner)}</ul>'

    def reached(self, keys: list[Key], page: str) -> str:
        """Definitions that something is reached through."""
        links = [self.anchor(f"<code>{escape(key[2])}</code>", self.addresses.item(key), page) for key in keys[:6]]
        return "through " + ", ".join(links) if links else "none"

    def functions_of(self, key: Key, page: str) -> str:
        """The functions whose contracts cite a definition."""
        found = [self.shown_function(one, page) for one in self.evidence.functions.get(key, [])]
        through = self.reached(self.evidence.through(key, self.evidence.functions), page)
        return self.part("Functions whose contracts cite it", found, through)

    def shown_function(self, function: Function, page: str) -> str:
        """A function's name, first sentence, signature and contract."""
        lead = self.anchor(f"<code>{escape(function.full)}</code>", self.addresses.function(function), page)
        told = f"{function.signature}\n{function.contract}".rstrip()
        return f"{lead} {words(first_sentence(function.comment))}{block(told, self.link(function.path, page))}"

    def theorems_of(self, key: Key, page: str) -> str:
        """The theorems that speak of a definition: those with a comment of their own first."""
        keys = sorted(self.evidence.theorems.get(key, []), key=lambda one: not self.code.items[one].comment)
        shown = [self.shown_theorem(self.code.items[one], page) for one in keys[:THEOREMS]]
        others = [self.code.items[one] for one in keys[THEOREMS:]]
        links = [
            self.anchor(f"<code>{escape(one.name)}</code>", self.addresses.source(one.path, one.line), page) for one in others
        ]
        return self.part("Theorems that speak of it", shown + ([", ".join(links)] if links else []), "none")

    def shown_theorem(self, item: Item, page: str) -> str:
        """A theorem's name, first sentence and statement."""
        lead = self.anchor(f"<code>{escape(item.name)}</code>", self.addresses.source(item.path, item.line), page)
        told = item.signature if item.kind == "definition" else item.code
        return f"{lead} {words(first_sentence(item.comment))}{block(told, self.link(item.path, page))}"

    def pins_of(self, key: Key, page: str) -> str:
        """The examples that pin a definition: those whose comment names it first."""
        named = f" {key[2]} "
        pins = self.evidence.pins.get(key, [])
        pins = sorted(pins, key=lambda one: named not in f" {one.comment.replace(':', ' ').replace(',', ' ').replace(';', ' ')} ")
        shown = [self.shown_example(one, page) for one in pins[:PINS]]
        places = [
            (f"{one.path.split('/', 1)[1]}, line {one.line}", self.addresses.source(one.path, one.line)) for one in pins[PINS:]
        ]
        shown += [", ".join(self.anchor(escape(text), to, page) for text, to in places)] if places else []
        through = self.reached(self.evidence.through(key, self.evidence.pins), page)
        return self.part("Examples that pin it", shown, through)

    def shown_example(self, example: Example, page: str) -> str:
        """An example, or the examples under one comment."""
        lead = self.anchor(escape(example.path.split("/", 1)[1]), self.addresses.source(example.path, example.line), page)
        lines = example.code.splitlines()
        told = "\n".join(lines[:12] + (["    .."] if len(lines) > 12 else []))
        return f"{lead} {words(example.comment)}{block(told, self.link(example.path, page))}"

    def edits_of(self, key: Key, page: str) -> str:
        """The wrong edits that break a definition."""
        found = self.evidence.broken.get(key, [])
        shown = [self.shown_edit(one, page) for one in found[:EDITS]]
        others = [self.edit_link(one, page) for one in found[EDITS:]]
        return self.part("Wrong edits that break it", shown + ([", ".join(others)] if others else []), "none")

    def edit_link(self, edit: Edit, page: str) -> str:
        """A wrong edit's name, as a link to its file."""
        crate = edit.path.split("/")[1]
        return self.anchor(f"<code>{escape(crate)}/{escape(edit.name)}</code>", self.addresses.source(edit.path), page)

    def shown_edit(self, edit: Edit, page: str) -> str:
        """A wrong edit: what it says, and what it changes."""
        lines = [
            f'<span class="gd">- {escape(one.old.strip())}</span>\n<span class="gi">+ {escape(one.new.strip())}</span>'
            for one in edit.changes
        ]
        beside = "" if edit.in_gate else " (beside the gate)"
        code = "\n".join(lines)
        lead = f"{self.edit_link(edit, page)}{beside} {words(edit.comment)}"
        return f'{lead}<div class="highlight"><pre><code>{code}</code></pre></div>'

    def samsung_of(self, key: Key, page: str) -> str:
        """Where samsung.rs has it, as the documents tell."""
        clauses = self.samsung.of(key)
        nothing = self.anchor("the documents name no place", self.addresses.document(self.samsung.document), page)
        return self.part("In samsung.rs", [words(clause) for clause in clauses], nothing)

    def function(self, function: Function, page: str) -> str:
        """A function, which opens to its signature and its contract."""
        told = f"{function.signature}\n{function.contract}".rstrip()
        lead = f"<code>{escape(function.full)}</code> <span>{words(first_sentence(function.comment))}</span>"
        inner = comment_of(function.comment) + block(told, self.link(function.path, page))
        inner += self.place(function.path, function.line, page)
        return f'<details class="panel" id="{escape(function_anchor(function))}"><summary>{lead}</summary>{inner}</details>'


def comment_of(text: str) -> str:
    """A comment as a paragraph, where it says more than the line that is opened."""
    whole = " ".join(text.split())
    return f"<p>{words(whole)}</p>" if first_sentence(text) != whole else ""
