"""Files of the repository as pages of their own, with a place for each line."""

from __future__ import annotations

from html import escape

from addresses import relative
from colours import coloured
from repository import Repository

STYLE = "assets/sources.css"


def page(repository: Repository, path: str) -> str:
    """A file's page."""
    name = f"sources/{path}.html"
    code = (
        coloured(repository.text(path), lambda word: None) if path.endswith((".antt", ".rt")) else escape(repository.text(path))
    )
    lines = "\n".join(f'<span id="L{number}">{line}</span>' for number, line in enumerate(code.splitlines(), 1))
    head = (
        f'<meta charset="utf-8"><meta name="viewport" content="width=device-width,initial-scale=1"><title>{escape(path)}</title>'
    )
    style = f'<link rel="stylesheet" href="{relative(STYLE, name)}">'
    back = f'<p><a href="{relative("index.html", name)}">The rules</a> · {escape(path)}</p>'
    return f'<!doctype html><html lang="en"><head>{head}{style}</head><body>{back}<pre>{lines}</pre></body></html>\n'
