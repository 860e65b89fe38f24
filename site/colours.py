"""Code as HTML, in the colours of the theme, with links."""

from __future__ import annotations

import re
from collections.abc import Callable
from html import escape

TOKEN = re.compile(
    r"(?P<c1>(?<!\S)(?:--|//)[^\n]*)"
    r"|(?P<mi>(?<![\w'-])(?:0x[0-9A-Fa-f_]+|0b[01_]+|\d[\d_]*)(?![\w'-]))"
    r"|(?P<word>[\w'-]+(?:\.(?=[\w_])[\w'-]+)?)"
    r"|(?P<o>[→≡∷λ×≤≢⊎∸≟◌])"
)
KEYWORDS = frozenset(
    "use pub record data where let in unfolding unfoldable abbrev module mod with fn extern if else match while for return "
    "struct enum impl const mut as requires ensures ghost cond Type".split()
)
TYPES = frozenset("ℕ ℤ Bool List Option u8 u16 u32 u64 i32 i64 usize bool".split())

# What a word of the code links to, if anything.
Link = Callable[[str], str | None]


def no_link(word: str) -> None:
    """What a field, or a name where it is given, links to."""


def coloured(text: str, link: Link) -> str:
    """The code's HTML; words that `link` knows are links."""
    parts: list[str] = []
    at = 0
    for found in TOKEN.finditer(text):
        parts.append(escape(text[at : found.start()]))
        named = text[found.start() - 1 : found.start()] == "." or text[found.end() :].startswith((" : ", " = "))
        parts.append(piece(found, no_link if named else link))
        at = found.end()
    parts.append(escape(text[at:]))
    return "".join(parts)


def piece(found: re.Match[str], link: Link) -> str:
    """The HTML of a token."""
    text, kind = found[0], found.lastgroup
    if kind != "word":
        return f'<span class="{kind}">{escape(text)}</span>'
    if text in KEYWORDS:
        return f'<span class="k">{text}</span>'
    if text in TYPES:
        return f'<span class="kt">{text}</span>'
    to = link(text)
    return escape(text) if to is None else f'<a href="{escape(to)}">{escape(text)}</a>'


def block(text: str, link: Link) -> str:
    """A block of code."""
    return f'<div class="highlight"><pre><code>{coloured(text, link)}</code></pre></div>'


def words(text: str) -> str:
    """A comment's words as HTML: what stands in backticks is code."""
    parts = escape(" ".join(text.split()), quote=False).split("`")
    return "".join(f"<code>{part}</code>" if i % 2 else part for i, part in enumerate(parts))
