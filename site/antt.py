"""Files of definitions and proofs (.antt): their items, each with its comment, its signature and its body."""

from __future__ import annotations

import re
from dataclasses import dataclass

HEAD = re.compile(
    r"(?P<words>(?:(?:unfoldable|abbrev|opaque|pub) )*)(?P<kind>(?:record|data) )?(?P<name>[^\s:(){}]+)(?P<rest>.*)"
)
NO_ITEM = ("use", "mod", "module", "ruleset", "unfolding", "open", "infix", "infixl", "infixr")


@dataclass(frozen=True)
class Item:
    """A definition, a record or a theorem: what stands from its comment to its last line."""

    path: str
    name: str
    public: bool
    kind: str
    line: int
    last: int
    comment: str
    signature: str
    body: str

    @property
    def code(self) -> str:
        """The signature and the body."""
        return f"{self.signature}\n{self.body}".rstrip()


def indent_of(line: str) -> int:
    """How far a line is indented."""
    return len(line) - len(line.lstrip(" "))


def group_end(text: str, at: int) -> int:
    """The place after the brackets that open there."""
    depth = 0
    for i in range(at, len(text)):
        depth += (text[i] in "({") - (text[i] in ")}")
        if depth == 0:
            return i + 1
    return len(text)


def is_signature(rest: str) -> bool:
    """Whether what follows a name says its type: arguments in brackets, if any, and a colon."""
    at = 0
    while at < len(rest) and rest[at] in " ({":
        at = at + 1 if rest[at] == " " else group_end(rest, at)
    return rest[at : at + 2] in (": ", ":")


def head_of(line: str) -> re.Match[str] | None:
    """The parts of a line that begins an item, or none."""
    found = HEAD.fullmatch(line.strip())
    if found is None or found["name"] in NO_ITEM or found["name"].startswith("--"):
        return None
    return found if found["kind"] or is_signature(found["rest"]) else None


def comment_text(lines: list[str]) -> str:
    """The words of comment lines."""
    return "\n".join(line.strip().removeprefix("--").strip() for line in lines)


def items(path: str, text: str) -> list[Item]:
    """The items of a file, those of inner modules among them, in their order."""
    lines = text.splitlines()
    found: list[Item] = []
    comment: list[str] = []
    at = level = 0
    while at < len(lines):
        line = lines[at]
        if not line.strip():
            comment = []
        elif line.lstrip().startswith("--"):
            comment.append(line)
        elif line.lstrip().startswith("module ") and line.rstrip().endswith("where"):
            level, comment = indent_of(line) + 2, []
        else:
            level = min(level, indent_of(line))
            head = head_of(line) if indent_of(line) == level else None
            if head is not None:
                item = read_item(path, lines, at, head, comment_text(comment) or shared_comment(found, at))
                found.append(item)
                at = item.last - 1
            comment = []
        at += 1
    return found


def shared_comment(before: list[Item], at: int) -> str:
    """The comment of a record that stands just before an item without one: it speaks of both."""
    shared = before and before[-1].kind != "definition" and before[-1].last == at - 1
    return before[-1].comment if shared else ""


def read_item(path: str, lines: list[str], at: int, head: re.Match[str], comment: str) -> Item:
    """The item that begins at a line: the signature goes on in deeper lines, the body up to an empty line or the next item."""
    level = indent_of(lines[at])
    record = bool(head["kind"])
    end = at + 1
    while end < len(lines) and lines[end].strip() and indent_of(lines[end]) > level and not record:
        end += 1
    last = end
    while last < len(lines) and belongs(lines, last, level, record):
        last += 1
    kind = (head["kind"] or "definition").strip()
    cut = [line[level:] for line in lines[at:last]]
    return Item(
        path=path,
        name=head["name"],
        public="pub" in head["words"].split(),
        kind=kind,
        line=at + 1,
        last=last,
        comment=comment,
        signature="\n".join(cut[: end - at]),
        body="\n".join(cut[end - at :]),
    )


def belongs(lines: list[str], at: int, level: int, record: bool) -> bool:
    """Whether a line still belongs to the item of that level."""
    line = lines[at]
    if not line.strip():
        later = next((later for later in lines[at:] if later.strip()), "")
        return indent_of(later) > level and bool(later)
    if indent_of(line) > level:
        return True
    return (
        not record
        and indent_of(line) == level
        and not line.lstrip().startswith("--")
        and head_of(line) is None
        and not line.lstrip().startswith(("use ", "mod ", "pub ", "module "))
    )


def file_comment(text: str) -> str:
    """The comment that a file begins with."""
    lines: list[str] = []
    for line in text.splitlines():
        if not line.startswith(("--", "//")):
            break
        lines.append(line.lstrip("-/").strip())
    return "\n".join(lines)


def first_sentence(text: str) -> str:
    """The first sentence of a comment, on one line."""
    words = " ".join(text.split())
    found = re.match(r"(.*?[^.\s][.?!])(?=\s+[A-Z`\d]|$)", words)
    return found[1] if found else words
