"""Tables, names and links of documents."""

from __future__ import annotations

import re
from dataclasses import dataclass

LINK = re.compile(r"(!?\[[^\]]*\])\(([^)\s]+)\)")


@dataclass(frozen=True)
class Table:
    """A table: the names of its columns, and its rows."""

    head: list[str]
    rows: list[list[str]]


def cells(line: str) -> list[str]:
    """The cells of a table's line."""
    return [cell.strip() for cell in line.strip().strip("|").split("|")]


def tables(text: str) -> list[Table]:
    """The tables of a document."""
    groups = re.findall(r"(?:^\|.*\|\n)+", text + "\n", flags=re.M)
    lines = (group.splitlines() for group in groups)
    return [Table(cells(found[0]), [cells(line) for line in found[2:]]) for found in lines if len(found) > 1]


def names(text: str) -> list[str]:
    """The names in backticks."""
    return text.split("`")[1::2]
