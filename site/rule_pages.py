"""The pages of the rules: the document's sections, in which each citation opens its definition in place."""

from __future__ import annotations

import re
from collections import Counter

from addresses import Addresses, anchor_of
from documents import source_link, with_links
from names import Key
from rules import DOCUMENT, Section, citations

# A page without the list of its headings beside it.
WIDE = "---\nhide:\n  - toc\n---\n"

MARK = re.compile(r"(?:<p>)?⟦(\w+) ([^⟧]*)⟧(?:</p>)?")


def mark(kind: str, names: list[str]) -> str:
    """A place that gets its HTML after mkdocs has made the page."""
    return f"⟦{kind} {' '.join(names)}⟧"


class RulePages:
    """Makes the sections' pages."""

    def __init__(self, addresses: Addresses) -> None:
        self.addresses, self.rules = addresses, addresses.rules

    def page(self, section: Section) -> str:
        """A section's Markdown."""
        return f"# {section.title}\n\n{self.body(section)}"

    def body(self, section: Section) -> str:
        """A section's blocks, each with the definitions that have their place there."""
        placed: set[Key] = set()
        return "\n".join(self.block(block, section, section.page, placed) for block in blocks(section.text))

    def block(self, text: str, section: Section, page: str, placed: set[Key]) -> str:
        """A paragraph, a list's item or a table, and after it the definitions that have their place here."""
        keys = self.rules.cited_by(text, section)
        new = [key for key in dict.fromkeys(keys) if self.rules.home[key] is section and key not in placed]
        placed.update(new)
        linked = self.cited(with_links(text, DOCUMENT, page, self.addresses), keys, page)
        if not new:
            return linked
        marks = mark("definitions", [anchor_of(key) for key in new])
        if re.match(r"\s*(?:[-*]|\d+\.) ", text):
            return f"{linked.rstrip()} {marks}"
        return f"{linked.rstrip()}\n\n{marks}\n"

    def cited(self, text: str, keys: list[Key], page: str) -> str:
        """The text with its citations as links, in their order."""
        waiting = iter(keys)
        parts: list[str] = []
        at = 0
        for found in citations(text):
            link = source_link(self.addresses.item(next(waiting)), page)
            parts += [text[at : found.start()], f"[{found[0]}]({link})"]
            at = found.end()
        return "".join(parts) + text[at:]

    def front(self) -> str:
        """The first page: how the document opens, and its sections."""
        counts = Counter(home.title for home in self.rules.home.values())
        lines = [f"| [{one.title}](rules/{one.slug}.md) | {counts[one.title]} |" for one in self.rules.sections]
        table = "| Section | Definitions |\n|---|---|\n" + "\n".join(lines)
        return f"{self.body(self.rules.front)}\n\n## Sections\n\n{table}\n"


def blocks(text: str) -> list[str]:
    """A section's paragraphs, tables, and items of lists, each as its lines stand."""
    found: list[list[str]] = []
    for line in text.strip("\n").split("\n"):
        begins = re.match(r"(?:[-*]|\d+\.) ", line) or not line.strip()
        if begins or not found or not found[-1][-1].strip():
            found.append([line])
        else:
            found[-1].append(line)
    return ["\n".join(lines) for lines in found]
