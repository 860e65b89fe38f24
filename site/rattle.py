"""Files of code (.rt): their functions, each with its comment, its signature, its contract and its lines."""

from __future__ import annotations

import re
from dataclasses import dataclass, field, replace

FUNCTION = re.compile(r"(?P<indent> *)(?P<public>pub )?(?:extern \"C\" )?fn (?P<name>\w+)")
OWNER = re.compile(r"(?P<public>pub )?(?:trait|impl(?:<[^>]*>)?) (?:(?P<trait>[^{]+) for )?(?P<type>[^\s{:]+)")
# A word of a trait, to which an impl gives a meaning.
WORD = re.compile(r"    ghost (\w+) = ")


@dataclass
class Owner:
    """What functions stand in: a trait, or an impl, of a type's own functions or of a trait's."""

    name: str = ""
    type: str = ""
    trait: str = ""
    public: bool = False
    comment: str = ""
    words: dict[str, str] = field(default_factory=dict)


@dataclass(frozen=True)
class Function:
    """A function; its path is that of its modules and of the type or trait that it belongs to. A call names it as in `called`: many
    types have a `from`. In a trait's impl it is held to the trait's own, its law."""

    path: str
    crate: str
    modules: tuple[str, ...]
    name: str
    public: bool
    exported: bool
    line: int
    last: int
    comment: str
    signature: str
    contract: str
    called: str
    law: Function | None = None

    @property
    def full(self) -> str:
        """The function's name with its path, in Rust's words."""
        return "::".join((self.crate, *self.modules, self.name))


def modules_of(path: str) -> tuple[str, ...]:
    """The modules of a file below crates/NAME/src."""
    inner = path.split("/src/")[1].removesuffix(".rt").split("/")
    return () if inner in (["lib"], ["main"]) else tuple(inner)


def functions(path: str, text: str) -> list[Function]:
    """The functions of a file, in their order."""
    lines = text.splitlines()
    found: list[tuple[Function, Owner]] = []
    owner = Owner()
    for at, line in enumerate(lines):
        if line and not line.startswith((" ", "}")):
            owner = owner_of(lines, at)
        word = WORD.match(line)
        if word is not None and owner.trait:
            owner.words[word[1]] = "\n".join(lines[at : ending(lines, at, "};") + 1])
        head = FUNCTION.match(line)
        if head is not None:
            found.append((read_function(path, lines, at, head, owner), owner))
    known = {function.full: function for function, _ in found}
    return [under_law(function, owner, known) if owner.trait else function for function, owner in found]


def owner_of(lines: list[str], at: int) -> Owner:
    """What the functions after a line stand in."""
    named = OWNER.match(lines[at])
    if named is None:
        return Owner()
    plain = named["type"].partition("<")[0]
    if named["trait"] is None:
        return Owner(plain, public=bool(named["public"]))
    name = f"<{named['type']} as {named['trait']}>"
    return Owner(name, plain, named["trait"].partition("<")[0], comment=comment_above(lines, at))


def under_law(function: Function, owner: Owner, known: dict[str, Function]) -> Function:
    """A function of a trait's impl. Comment and clauses are the trait's, if it has none of its own; those of the library's traits
    stand elsewhere. It has what the words of the clauses mean for the type, too."""
    law = known.get("::".join((function.crate, *modules_of(function.path), owner.trait, function.name)))
    clauses = function.contract or f"    // The law of {owner.trait}::{function.name}:\n{law.contract if law else ''}".rstrip()
    words = [text for word, text in owner.words.items() if law is None or re.search(rf"\b{word}\b", clauses)]
    return replace(
        function,
        public=law is None or law.public,
        comment=function.comment or (law.comment if law else owner.comment),
        contract="\n".join([clauses, *words]),
        law=law,
        called=function.name if law else f"{owner.type}::{function.name}",
    )


def ending(lines: list[str], at: int, *ends: str) -> int:
    """The first line from a line on that ends so."""
    return next(i for i in range(at, len(lines)) if lines[i].endswith(ends))


def comment_above(lines: list[str], at: int) -> str:
    """The comment that stands above a line."""
    above = at
    while above > 0 and lines[above - 1].strip().startswith(("//", "#[")):
        above -= 1
    return "\n".join(line.strip()[2:].strip() for line in lines[above:at] if line.strip().startswith("//"))


def read_function(path: str, lines: list[str], at: int, head: re.Match[str], owner: Owner) -> Function:
    """The function that begins at a line. A trait's may have no body: then it ends with its clauses."""
    indent = head["indent"]
    opening = ending(lines, at, "{", ";")
    last = opening if lines[opening].endswith(";") else next(i for i in range(opening, len(lines)) if lines[i] == indent + "}")
    told = [*lines[at:opening], lines[opening][:-1].rstrip()]
    told = [line.removeprefix(indent) for line in told if line.strip()]
    cut = next((i for i, line in enumerate(told) if line.lstrip().startswith(("requires", "ensures"))), len(told))
    return Function(
        path=path,
        crate=path.split("/")[1],
        modules=modules_of(path) + ((owner.name,) if owner.name else ()),
        name=head["name"],
        public=bool(head["public"]) or owner.public,
        exported="extern" in lines[at],
        line=at + 1,
        last=last + 1,
        comment=comment_above(lines, at),
        signature="\n".join(told[:cut]),
        contract="\n".join(told[cut:]),
        called=head["name"],
    )
