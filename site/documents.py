"""The repository's documents as pages: their links lead to other pages, or to pages of the files that they name."""

from __future__ import annotations

import posixpath
import re

from addresses import Addresses, relative
from collections.abc import Callable

from markdown_text import LINK
from rules import DOCUMENT


def listed(addresses: Addresses) -> list[str]:
    """The documents that have pages of their own: README first, then docs/, then what else stands at the top."""
    repository = addresses.code.repository
    at_top = repository.paths("*.md")
    others = [path for path in repository.paths("docs/*.md") if path != DOCUMENT]
    return (
        [path for path in at_top if path.startswith("README")]
        + others
        + [path for path in at_top if not path.startswith("README")]
    )


def with_links(text: str, path: str, page: str, addresses: Addresses) -> str:
    """A document's text with its links as they are on the site."""

    def linked(found: re.Match[str]) -> str:
        words, to = found[1], found[2]
        if "://" in to or to.startswith(("#", "mailto:")):
            return found[0]
        target, _, anchor = to.partition("#")
        inner = posixpath.normpath(posixpath.join(posixpath.dirname(path), target))
        address = address_of(inner, anchor, addresses)
        return words[1:-1] if address is None else link(words, address, page)

    return outside_code(text, lambda part: LINK.sub(linked, part))


def link(words: str, address: str, page: str) -> str:
    """A link from a page in Markdown; `words` stand in square brackets. What mkdocs doesn't make it is not told of."""
    if address.startswith("sources/"):
        return f'<a href="{relative(address, page)}">{words[1:-1]}</a>'
    return f"{words}({source_link(address, page)})"


def outside_code(text: str, change: Callable[[str], str]) -> str:
    """A text in which what stands outside blocks of code is changed."""
    parts = re.split(r"(^```.*?^```|(?:^ {4}\S[^\n]*\n)+)", text, flags=re.M | re.S)
    return "".join(part if i % 2 else change(part) for i, part in enumerate(parts))


def address_of(path: str, anchor: str, addresses: Addresses) -> str | None:
    """Where a file of the repository stands on the site."""
    repository = addresses.code.repository
    if path == DOCUMENT and anchor:
        slugs = [section.slug for section in addresses.rules.sections]
        return f"rules/{anchor}.html" if anchor in slugs else "index.html"
    if path == DOCUMENT or path in listed(addresses):
        return addresses.document(path) + (f"#{anchor}" if anchor else "")
    if path.endswith(".png"):
        return f"documents/{posixpath.basename(path)}"
    if (repository.top / path).is_file():
        return addresses.source(path)
    return None


def source_link(address: str, page: str) -> str:
    """The way from page to page by their sources, which mkdocs checks."""
    path, _, anchor = relative(address, page).partition("#")
    path = path.removesuffix(".html") + ".md" if path.endswith(".html") else path
    return f"{path}#{anchor}" if anchor else path
