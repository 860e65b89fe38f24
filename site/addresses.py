"""Where each thing stands on the site."""

from __future__ import annotations

import posixpath
import re

from code_index import Code, is_spec
from names import Key
from rattle import Function
from rules import DOCUMENT, Rules


def relative(to: str, page: str) -> str:
    """The way from a page to an address of the site, both from its top."""
    path, _, anchor = to.partition("#")
    if path == page:
        return f"#{anchor}"
    way = posixpath.relpath(path, posixpath.dirname(page) or ".")
    return f"{way}#{anchor}" if anchor else way


def anchor_of(key: Key) -> str:
    """A definition's anchor: its crate, file and name."""
    return f"{key[0]}.{key[1].removeprefix('specs.').removeprefix('proofs.')}.{key[2]}"


def function_anchor(function: Function) -> str:
    """A function's anchor: its name, of which what stands in brackets is one word."""
    return "::".join("-".join(re.findall(r"\w+", part)) for part in (function.crate, *function.modules, function.name))


class Addresses:
    """Addresses from the site's top. Files of the repository that are asked for are noted, so that each gets a page."""

    def __init__(self, code: Code, rules: Rules) -> None:
        self.code, self.rules = code, rules
        self.sources: set[str] = set()

    def source(self, path: str, line: int = 0) -> str:
        """A line of a file."""
        self.sources.add(path)
        return f"sources/{path}.html" + (f"#L{line}" if line else "")

    def item(self, key: Key) -> str:
        """A rule's definition stands in its section, another crate's own on the crate's page, and a theorem in its file."""
        if key in self.rules.home:
            return f"{self.rules.home[key].page}#{anchor_of(key)}"
        item = self.code.items[key]
        if is_spec(key) and item.public:
            return f"crates/{key[0]}.html#{anchor_of(key)}"
        return self.source(item.path, item.line)

    def function(self, function: Function) -> str:
        """A function stands on its crate's page."""
        return f"crates/{function.crate}.html#{function_anchor(function)}"

    def crate(self, name: str) -> str:
        """A crate's page."""
        return f"crates/{name}.html"

    def document(self, path: str) -> str:
        """A document's page; the rules are the site's first page."""
        if path == DOCUMENT:
            return "index.html"
        return f"documents/{posixpath.basename(path).removesuffix('.md').lower()}.html"
