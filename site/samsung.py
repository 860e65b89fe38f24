"""Where samsung.rs has what: sentences of the documents that name its functions beside crates of ours."""

from __future__ import annotations

import re
from collections import deque
from functools import cached_property

from code_index import Code
from evidence import Evidence
from markdown_text import names, tables
from names import Key
from repository import Repository

REFERENCE = "samsung.rs"


def its_functions(repository: Repository) -> set[str]:
    """The names of its functions and types: the first names in the columns of tables that are headed `samsung.rs`."""
    found: set[str] = set()
    for path in repository.paths("docs/*.md"):
        for table in tables(repository.text(path)):
            if REFERENCE in table.head:
                cells = (row[table.head.index(REFERENCE)] for row in table.rows)
                found.update(re.split(r"\W", name)[0] for cell in cells for name in names(cell)[:1])
    return found


# A clause, the crates that it names, and the document that it stands in.
Clause = tuple[str, set[str], str]


def clauses(repository: Repository) -> list[Clause]:
    """What tells where its functions went: clauses of paragraphs, and rows of tables that are headed `samsung.rs`."""
    found: list[Clause] = []
    for path in repository.paths("docs/*.md"):
        text = repository.text(path)
        told = [clause for part in re.split(r"\n\s*\n", text) for clause in of_paragraph(repository, part)]
        told += [": ".join(row[:2]) for table in tables(text) if REFERENCE in table.head for row in table.rows]
        named = ((clause, {name.split("::")[0] for name in names(clause)} & set(repository.crates)) for clause in told)
        found += [(clause, crates, path) for clause, crates in named if crates]
    if not found:
        raise SystemExit("no document tells where the functions of samsung.rs went")
    return found


def of_paragraph(repository: Repository, text: str) -> list[str]:
    """The clauses of a paragraph that names functions of samsung.rs, and our crates with functions of theirs."""
    named = {re.split(r"\W", name)[0] for name in names(text)}
    few = len(named & its_functions(repository)) < 3 or len(named & set(repository.crates)) < 3
    if few or text.startswith("|") or "::" not in text:
        return []
    return [clause.strip(" -\n") for clause in re.split(r"[;.:](?=\s)|\.$", text)]


class Samsung:
    """Which clauses speak of a definition: by the crates of the code that is held to it, or of the crates that use these."""

    def __init__(self, code: Code, evidence: Evidence) -> None:
        self.code, self.evidence = code, evidence
        self.clauses = clauses(code.repository)

    @property
    def document(self) -> str:
        """The document that tells it."""
        return self.clauses[0][2]

    def of(self, key: Key) -> list[str]:
        """The clauses for a definition."""
        functions = list(self.evidence.functions.get(key, []))
        for user in [] if functions else self.evidence.through(key, self.evidence.functions):
            functions += self.evidence.functions[user]
        near = self.near({function.crate for function in functions})
        return [clause for clause, crates, _ in self.clauses if crates & near]

    def near(self, crates: set[str]) -> set[str]:
        """The crates themselves where a clause names them, else the nearest that use them and are named."""
        told = {name for _, crates_, _ in self.clauses for name in crates_}
        near: set[str] = set()
        seen: set[str] = set()
        waiting = deque(sorted(crates))
        while waiting:
            name = waiting.popleft()
            if name in seen:
                continue
            seen.add(name)
            if name in told:
                near.add(name)
            if name not in told or name in self.vague:
                waiting.extend(self.code.repository.users(name))
        return near

    @cached_property
    def vague(self) -> set[str]:
        """The crates whose clauses name no function of samsung.rs."""
        known = self.code.repository.crates
        plain = [crates for clause, crates, _ in self.clauses if all(name.split("::")[0] in known for name in names(clause))]
        return {name for crates in plain for name in crates}
