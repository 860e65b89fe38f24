"""The rules in words: sections of the document, and the definitions that they cite."""

from __future__ import annotations

import re
from dataclasses import dataclass

from code_index import Code, is_spec
from names import Key

DOCUMENT = "docs/RULES.md"
CITATION = re.compile(r"`([A-Z][A-Za-z0-9]*)\.([^\s.`]+)`")
SEVERAL = re.compile(r"`([A-Z][A-Za-z0-9]*)\.\{([^}`]+)\}`")
ENDINGS = ("md", "rs", "rt", "antt", "txt", "toml", "h", "c")
CRATE = re.compile(r"`(?:crates/)?([a-z][a-z0-9_]*)[`/]")


@dataclass(frozen=True)
class Section:
    """A part of the document under one heading."""

    title: str
    text: str

    @property
    def page(self) -> str:
        """Its page; what stands before the first heading is the site's first."""
        return f"rules/{self.slug}.html" if self.title else "index.html"

    @property
    def slug(self) -> str:
        """The heading as it stands in addresses."""
        return re.sub(r"[^a-z0-9]+", "-", self.title.lower()).strip("-")


def one_by_one(text: str) -> str:
    """A text in which `File.{one,other}` is written `File.one`, `File.other`, so that each can be opened."""

    def each(found: re.Match[str]) -> str:
        return ", ".join(f"`{found[1]}.{name.strip()}`" for name in found[2].split(","))

    return SEVERAL.sub(each, text)


def sections(text: str) -> tuple[str, list[Section]]:
    """What stands before the first section, and the sections."""
    parts = re.split(r"^## (.*)$", text, flags=re.M)
    return parts[0], [Section(title, body) for title, body in zip(parts[1::2], parts[2::2])]


def citations(text: str) -> list[re.Match[str]]:
    """The definitions that a text names, as `File.name`."""
    return [found for found in CITATION.finditer(text) if found[2] not in ENDINGS]


class Rules:
    """The document, with each definition's own place: the section that first cites it."""

    def __init__(self, code: Code) -> None:
        self.code = code
        self.text = one_by_one(code.repository.text(DOCUMENT))
        self.opening, self.sections = sections(self.text)
        self.named = [name for name in CRATE.findall(self.opening) if name in code.repository.crates]
        self.home: dict[Key, Section] = {}
        for section in self.sections:
            for found in citations(section.text):
                self.home.setdefault(self.resolve(found, section.text), section)
        self.front = Section("", self.opening)
        for found in citations(self.opening):
            self.home.setdefault(self.resolve(found, ""), self.front)

    def resolve(self, found: re.Match[str], text: str) -> Key:
        """The definition that a citation means: of several crates' that of the crate named last before it in the section."""
        keys = [key for key in self.code.items if is_spec(key) and key[1].endswith(f".{found[1]}") and key[2] == found[2]]
        if len(keys) > 1:
            before = CRATE.findall(text[: found.start()])[::-1] + self.named
            keys.sort(key=lambda key: before.index(key[0]) if key[0] in before else len(before))
        if not keys:
            raise SystemExit(f"{DOCUMENT}: no crate has the definition {found[1]}.{found[2]}")
        return keys[0]

    def cited_by(self, block: str, section: Section) -> list[Key]:
        """The definitions that a block of a section cites, in their order."""
        before = section.text[: section.text.index(block)]
        found = citations(before + block)
        return [self.resolve(one, section.text) for one in found if one.start() >= len(before)]
