"""The crates' pages, and the drawing of all of them by layers."""

from __future__ import annotations

from html import escape

from addresses import Addresses, anchor_of, function_anchor, relative
from antt import first_sentence
from code_index import Code, is_spec
from colours import words
from documents import source_link, with_links
from drawings import drawn, node, quoted
from evidence import Evidence
from markdown_text import names, tables
from rule_pages import WIDE, mark


def told(code: Code) -> dict[str, tuple[str, str]]:
    """What each crate holds: the cell of a document's table with the columns "Crate" and "Holds", and that document."""
    found: dict[str, tuple[str, str]] = {}
    for path in code.repository.paths("docs/*.md"):
        for table in tables(code.repository.text(path)):
            if {"Crate", "Holds"} <= set(table.head):
                crate, holds = table.head.index("Crate"), table.head.index("Holds")
                found.update({names(row[crate])[0]: (row[holds], path) for row in table.rows if names(row[crate])})
    return found


class CratePages:
    """Makes the crates' pages."""

    def __init__(self, code: Code, evidence: Evidence, addresses: Addresses) -> None:
        self.code, self.evidence, self.addresses = code, evidence, addresses
        self.told = told(code)

    def page(self, name: str) -> str:
        """A crate: what it holds and uses, its public functions, definitions, theorems and wrong edits."""
        repository = self.code.repository
        page = self.addresses.crate(name)
        holds, document = self.told.get(name, ("", ""))
        holds = with_links(holds, document, page, self.addresses)
        parts = [f"# `{name}`", holds[:1].upper() + holds[1:] + ("." if holds else "")]
        parts.append(
            f"**Uses** {self.linked(list(repository.crates[name].uses), page)}. "
            f"**Used by** {self.linked(repository.users(name), page)}."
        )
        parts.append(self.functions(name))
        parts.append(self.definitions(name, page))
        parts.append(self.theorems(name, page))
        parts.append(self.edits(name, page))
        return "\n\n".join(part for part in parts if part) + "\n"

    def linked(self, crates: list[str], page: str) -> str:
        """Crates as links, but for those of the toolchain."""
        known = self.code.repository.crates
        links = [f"[`{one}`]({source_link(self.addresses.crate(one), page)})" if one in known else f"`{one}`" for one in crates]
        return ", ".join(links) or "none"

    def functions(self, name: str) -> str:
        """The public functions, and the others whose contracts cite definitions, which rules lead to."""
        all_of = self.code.crate_functions(name)
        public = [function_anchor(one) for one in all_of if one.public]
        inner = [function_anchor(one) for one in all_of if not one.public]
        parts = [f"## Public functions\n\n{mark('functions', public)}" if public else ""]
        parts.append(f"## Inner functions\n\n{mark('functions', inner)}" if inner else "")
        return "\n\n".join(part for part in parts if part)

    def definitions(self, name: str, page: str) -> str:
        """The definitions: those that rules cite as links, others to be opened here."""
        keys = self.code.definitions_of(name)
        rules = [key for key in keys if key in self.addresses.rules.home]
        own = [anchor_of(key) for key in keys if key not in self.addresses.rules.home]
        links = [f"[`{anchor_of(key).split('.', 1)[1]}`]({source_link(self.addresses.item(key), page)})" for key in rules]
        parts = [f"## Definitions of rules\n\n{', '.join(links)}" if rules else ""]
        parts.append(f"## Definitions of its own\n\n{mark('definitions', own)}" if own else "")
        return "\n\n".join(part for part in parts if part)

    def theorems(self, name: str, page: str) -> str:
        """The public theorems that have a comment, by file."""
        lines: list[str] = []
        for key, item in self.code.items.items():
            if key[0] == name and not is_spec(key) and item.public and item.comment:
                to = relative(self.addresses.source(item.path, item.line), page)
                file = key[1].removeprefix("proofs.")
                lines.append(
                    f'<li><a href="{escape(to)}"><code>{escape(file)}.{escape(item.name)}</code></a> '
                    f"{words(first_sentence(item.comment))}</li>"
                )
        return f'## Theorems\n\n<ul class="theorems">{"".join(lines)}</ul>' if lines else ""

    def edits(self, name: str, page: str) -> str:
        """The wrong edits."""
        lines: list[str] = []
        for edit in self.evidence.edits:
            if edit.path.split("/")[1] == name:
                to = relative(self.addresses.source(edit.path), page)
                beside = "" if edit.in_gate else " (beside the gate)"
                lines.append(
                    f'<li><a href="{escape(to)}"><code>{escape(edit.name)}</code></a>{beside} {words(edit.comment)}</li>'
                )
        return f"## Wrong edits\n\n<ul>{''.join(lines)}</ul>" if lines else ""

    def front(self) -> str:
        """All crates: the drawing, and a line for each."""
        lines = ["| Crate | Holds |", "|---|---|"]
        for name in self.code.repository.crates:
            holds, document = self.told.get(name, ("", ""))
            lines.append(f"| [`{name}`]({name}.md) | {with_links(holds, document, 'crates/index.html', self.addresses)} |")
        opening = (
            "Each crate stands above all that it uses. An arrow leads from a crate to one that it uses; "
            "where a longer way says it already, it is left out."
        )
        return f"{WIDE}# Crates\n\n{opening}\n\n{mark('drawing', ['crates'])}\n\n" + "\n".join(lines) + "\n"

    def drawing(self) -> str:
        """All crates by layers."""
        repository = self.code.repository
        lines = ["digraph {", 'rankdir=TB; bgcolor="transparent"; nodesep=0.18; ranksep=0.45;']
        lines.append(
            'node [shape=box, style=rounded, fontname="sans-serif", fontsize=12, height=0.32, margin="0.09,0.03"];'
            "edge [arrowsize=0.5];"
        )
        for layer in reversed(repository.layers):
            lines.append("{ rank=same;")
            lines += [node(name, name, f"{name}.html") for name in layer]
            lines.append("}")
        for crate in repository.crates.values():
            lines += [f"{quoted(crate.name)} -> {quoted(used)};" for used in crate.uses if used in repository.crates]
        return drawn("\n".join([*lines, "}"]), "wide", reduced=True)
