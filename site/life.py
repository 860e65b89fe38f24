"""The life of a frame: two walks from bytes to a sample, and the map's bytes of a small frame as they change."""

from __future__ import annotations

import re
from dataclasses import dataclass

from addresses import Addresses, relative
from documents import source_link
from drawings import drawn, node, quoted
from evidence import Evidence
from examples import in_examples
from names import Key
from rattle import Function
from rule_pages import WIDE, blocks, mark
from rules import Section
from running import Step, grown, steps

PAGE = "life.html"
LEAD = re.compile(r"(?:\d+\. )?(\*\*?)(?P<title>[^*]+?)\.?\1")
# What the last definition of a walk is called: the samples that a decoder leaves.
ENDS = "decoded"


@dataclass(frozen=True)
class Station:
    """A place on the walk: a paragraph of the rules, its definitions, and a function that is held to them."""

    title: str
    keys: list[Key]
    function: Function | None


class Life:
    """Makes the page."""

    def __init__(self, evidence: Evidence, addresses: Addresses, library: str) -> None:
        self.evidence, self.addresses, self.rules = evidence, addresses, addresses.rules
        self.code = evidence.code
        self.library = library

    def walks(self) -> list[Section]:
        """The sections that end in the samples that a decoder leaves."""
        return [
            section
            for section in self.rules.sections
            if any(key[2] == ENDS and home is section for key, home in self.rules.home.items())
        ]

    def stations(self, section: Section) -> list[Station]:
        """The paragraphs and items of a section that have a title, up to the one that says what the decoder leaves."""
        found: list[Station] = []
        for text in blocks(section.text):
            lead = LEAD.match(text)
            keys = self.rules.cited_by(text, section)
            if lead is not None and keys:
                title = lead["title"].rstrip(".")
                found.append(Station(title, keys, self.function(title, keys)))
            if any(key[2] == ENDS for key in keys):
                break
        return found

    def function(self, title: str, keys: list[Key]) -> Function | None:
        """The function that does it: with the last word of the title in its name, if there is such; its contract cites most."""
        cited: dict[str, int] = {}
        for key in dict.fromkeys(keys):
            for one in self.evidence.functions.get(key, []):
                cited[one.full] = cited.get(one.full, 0) + (1 if one.crate != key[0] else 0)
        stems = [word[:6].lower() for word in re.findall(r"\w{3,}", title)][::-1]

        def rank(name: str) -> tuple[int, int, bool, int, str]:
            function = self.code.function[name]
            named = next((at for at, stem in enumerate(stems) if stem in function.name), len(stems))
            return named, -cited[name], not function.public, len(self.code.contracts[name]), name

        return self.code.function[min(cited, key=rank)] if cited else None

    def before(self, section: Section) -> Section | None:
        """The section whose definitions those of this one cite most."""
        counts: dict[str, int] = {}
        for key, home in self.rules.home.items():
            for cited in self.code.item_cites[key] if home is section else []:
                other = self.rules.home.get(cited)
                if other is not None and other is not section and other.title:
                    counts[other.slug] = counts.get(other.slug, 0) + 1
        best = max(counts, key=lambda slug: counts[slug], default="")
        return next((one for one in self.rules.sections if one.slug == best), None)

    def after(self, section: Section) -> list[Key]:
        """What rests on the frame: definitions of other sections over what this one ends in."""
        ends = [key for key, home in self.rules.home.items() if key[2] == ENDS and home is section]
        frames = ends + [one for key in ends for one in self.code.item_cites[key] if self.rules.home.get(one) is section]
        users = [user for key in frames for user in self.code.users.get(key, []) if user in self.rules.home]
        others = [user for user in dict.fromkeys(users) if self.rules.home[user] is not section]
        return [user for user in others if not in_examples(self.code, user)][:4]

    def walk(self, slug: str) -> str:
        """A walk, drawn."""
        section = next(one for one in self.rules.sections if one.slug == slug)
        lines = [
            "digraph {",
            'bgcolor="transparent"; nodesep=0.25; ranksep=0.28;',
            'node [shape=box, style=rounded, fontname="sans-serif", fontsize=12, height=0.36]; edge [arrowsize=0.6];',
        ]
        way = ["bytes"]
        lines.append(node("bytes", "the stream's bytes", section.page))
        before = self.before(section)
        if before is not None:
            lines.append(node("before", before.title, before.page))
            way.append("before")
        for at, station in enumerate(self.stations(section)):
            lines += self.drawn_station(f"s{at}", station)
            way.append(f"s{at}")
        lines += [f"{quoted(a)} -> {quoted(b)};" for a, b in zip(way, way[1:])]
        for key in self.after(section):
            lines.append(node(f"after {key}", f"{key[1].rsplit('.', 1)[1]}.{key[2]}", relative(self.addresses.item(key), PAGE)))
            lines.append(f"{quoted(way[-1])} -> {quoted(f'after {key}')};")
        return drawn("\n".join([*lines, "}"]), "narrow")

    def drawn_station(self, name: str, station: Station) -> list[str]:
        """A station's box, and beside it that of its function."""
        lines = [node(name, station.title, relative(self.addresses.item(station.keys[0]), PAGE))]
        if station.function is not None:
            code = f"{name} code"
            lines.append(
                node(
                    code,
                    station.function.full,
                    relative(self.addresses.function(station.function), PAGE),
                    'style="", fontname="monospace", fontsize=10',
                )
            )
            lines.append(f"{{ rank=same; {quoted(name)}; {quoted(code)}; }}")
            lines.append(f"{quoted(name)} -> {quoted(code)} [style=dashed, arrowhead=none];")
        return lines

    def page(self) -> str:
        """The page's Markdown."""
        parts = [
            f"{WIDE}# Life of a frame",
            "From bytes to a sample: on the left the rules, on the right a function whose contract cites them. Each box is a link.",
        ]
        for section in self.walks():
            parts += [f"## {section.title}", mark("walk", [section.slug])]
        made = steps(self.code.repository, self.library)
        parts += ["## The map's bytes, step by step", made.opening]
        parts.append(mark("steps", ["rows"]))
        parts += [
            "## The same frame as its bytes come in",
            "The decoder is run on the first bytes of the stream. A sample that is not marked stays as it is.",
        ]
        parts.append(mark("steps", ["bytes"]))
        marks = [key for key in self.rules.home if any(key in self.after(section) for section in self.walks())]
        links = [f"[`{key[1].rsplit('.', 1)[1]}.{key[2]}`]({source_link(self.addresses.item(key), PAGE)})" for key in marks]
        parts.append("What the bytes mean, by the rules: " + ", ".join(links) + ".")
        return "\n\n".join(parts) + "\n"

    def pictures(self, which: str) -> str:
        """The pictures of the steps."""
        made = steps(self.code.repository, self.library) if which == "rows" else grown(self.code.repository, self.library)
        return '<div class="steps">' + "".join(picture(step) for step in made.steps) + "</div>"


def picture(step: Step) -> str:
    """A frame as a picture: a cell for each sample, in its map byte's colour, with both numbers."""
    side = 62
    cells: list[str] = []
    for row, line in enumerate(step.samples):
        for column, sample in enumerate(line):
            byte = step.marks[row][column]
            x, y = column * side + 1, row * side + 1
            cells.append(f'<rect class="byte{byte}" x="{x}" y="{y}" width="{side - 2}" height="{side - 2}"/>')
            cells.append(
                f'<text x="{x + side // 2 - 1}" y="{y + 26}">{sample}</text>'
                f'<text class="byte" x="{x + side // 2 - 1}" y="{y + 48}">byte {byte}</text>'
            )
    width, height = side * len(step.samples[0]), side * len(step.samples)
    svg = f'<svg viewBox="0 0 {width} {height}" width="{width}" height="{height}" role="img">{"".join(cells)}</svg>'
    return f"<figure>{svg}<figcaption>{step.words}</figcaption></figure>"
