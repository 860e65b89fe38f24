#!/usr/bin/env python3
"""Changes a crate's definitions one place at a time, checks the crate, and prints every change that still proves.

    tests/mutate.py [--crate rules] [--file V2] [--since COMMIT] [--count 100] [--seed 1] [--workers 2]

The definitions are those of the files of crates/CRATE/specs that an entry's contract rests on, or that STATED names; with --since
those of lines that are new since a commit. The changes are made in a copy of the crate among the temporary files that has the
worked examples, no theorem and no function. At first some are checked at once, by `rt check`: each is a file of its own beside the
definitions, with its own copy of what rests on it in one file of examples. What passes is made alone and checked with all
examples; what passes that with the theorems and the functions, too, and at last once more from nothing by `rt verdict`: where
these alone refuse a change, it may be that a function would only have to follow it, so such changes are printed, too. A change
that is no definition (its file no longer parses or has no type) is counted apart. The last lines have the figures, of each file
and of all; target/mutate/CRATE.txt has every change with its outcome. A run that was broken off goes on with --resume. With
--again the changes are tried once more that no example refused: for use after examples were added, which leave the others'
outcomes as they are.
"""

import argparse
import functools
import os
import queue
import random
import re
import shutil
import signal
import subprocess
import sys
import tempfile
import threading
from collections import Counter
from pathlib import Path
from typing import NamedTuple

ROOT = Path(__file__).resolve().parent.parent
# Files that hold worked examples: their lists in specs/, and their claims in proofs/.
EXAMPLES = {"Examples", "Pins", "Cases", "WrittenFrames", "V2Frames", "ACut", "ConvertExamples"}
IN_EXAMPLES = re.compile(rf"/proofs/({'|'.join(sorted(EXAMPLES))})\b")
# Files of definitions that theorems alone state, among them promises: no contract rests on them, and they are changed, too.
STATED = {"Late", "Missing", "References"}
AT_ONCE = 32
SECONDS = 600
# What may become of a change; further examples leave the first two as they are.
ALL = ("no definition", "refused by an example", "refused by a law", "no answer", "STILL PROVES")
SETTLED = ALL[:2]

# ---- Tokens

# A function of a source file, from its first line to its last.
FUNCTION = re.compile(r"^( *)(?:pub )?(?:extern \"C\" )?fn .*\n(?:.*\n)*?\1\}\n", re.M)

# A trait, and what a type does by one: without functions neither says anything, and its ghost items need names that go.
TRAIT = re.compile(r"^(?:pub )?(?:trait\b|impl\b.* for ).*\{\n(?:.*\n)*?\}\n", re.M)

TOKEN = re.compile(r"--(?=\s|$)[^\n]*|[(){};]|[^\s(){};]+")
NUMBER = re.compile(r"0x[0-9a-fA-F_]+|0b[01_]+|[0-9][0-9_]*")


class Token:
    def __init__(self, text, start):
        self.text, self.start, self.end = text, start, start + len(text)


def tokens(text, start, end):
    found = (Token(m.group(), m.start()) for m in TOKEN.finditer(text, start, end))
    return [t for t in found if not t.text.startswith("--")]


# ---- Expressions

LEVELS = {"||": (30, "l"), "&&": (35, "l"), "∷": (67, "r"), "++": (65, "l"), "+": (65, "l"), "-": (65, "l"), "*": (70, "l")}
LEVELS |= {"/": (70, "l"), "%": (70, "l"), "^": (75, "r"), "+ℤ": (65, "l"), "*ℤ": (70, "l")}

# The names that a change may bring in, and where they come from.
PRELUDE = "Rattle.std.specs.Prelude"
BROUGHT = ("◌+◌", "◌-◌", "◌*◌", "◌/◌", "◌%◌", "min", "max", "suc", "true", "false", "◌&&◌", "◌||◌", "ltb", "leb")
BROUGHT += ("pos", "negsuc", "◌+ℤ◌", "◌*ℤ◌")


class Node:
    """A part of a definition, from start to end: kind is name, number, paren, field, call, infix, record, let or lambda."""

    def __init__(self, kind, start, end, parts=(), name=None):
        self.kind, self.start, self.end, self.parts, self.name = kind, start, end, list(parts), name


class Parser:
    def __init__(self, found):
        self.found, self.at = found, 0

    def peek(self):
        return self.found[self.at].text if self.at < len(self.found) else None

    def take(self, expected=None):
        token = self.found[self.at]
        if expected is not None and token.text != expected:
            raise ValueError(f"expected {expected}, found {token.text}")
        self.at += 1
        return token

    def expression(self, level=0):
        if self.peek() == "let":
            return self.bound()
        if self.peek() == "λ":
            return self.abstraction()
        left = self.application()
        while self.peek() in LEVELS and LEVELS[self.peek()][0] >= level:
            operator = self.take()
            own, side = LEVELS[operator.text]
            right = self.expression(own + (side == "l"))
            left = Node("infix", left.start, right.end, [left, right], operator.text)
        return left

    def bound(self):
        start = self.take("let").start
        while self.take().text != "=":
            pass
        value = self.expression()
        self.take("in")
        body = self.expression()
        return Node("let", start, body.end, [value, body])

    def abstraction(self):
        start = self.take("λ").start
        while not self.take().text.endswith("."):
            pass
        body = self.expression()
        return Node("lambda", start, body.end, [body])

    def application(self):
        node = self.atom()
        while True:
            text = self.peek()
            if text is None or text in LEVELS or text in {")", "}", ";", "in"}:
                return node
            if text == "{":  # an implicit argument
                while self.take().text != "}":
                    pass
            elif text.startswith(".") and len(text) > 1:
                node = fields_of(node, self.take())
            else:
                argument = self.atom()
                # What follows a bracket at once is a field of what it holds.
                while (self.peek() or "").startswith(".") and self.found[self.at].start == argument.end:
                    argument = fields_of(argument, self.take())
                if node.kind == "call":
                    node.parts.append(argument)
                    node.end = argument.end
                else:
                    node = Node("call", node.start, argument.end, [node, argument])

    def atom(self):
        token = self.take()
        if token.text == "(":
            inner = self.expression()
            return Node("paren", token.start, self.take(")").end, [inner])
        if token.text == "record":
            return self.record(token)
        if NUMBER.fullmatch(token.text):
            return Node("number", token.start, token.end, name=token.text)
        # A module's name begins with a capital, and a dot after another name with a field.
        parts = token.text.split(".")
        count = 2 if parts[0][:1].isupper() and len(parts) > 1 else 1
        name = ".".join(parts[:count])
        node = Node("name", token.start, token.start + len(name), name=name)
        return fields_of(node, Token(token.text[len(name) :], node.end))

    def record(self, first):
        self.take("{")
        names, values = [], []
        while self.peek() != "}":
            names.append(self.take().text)
            self.take("=")
            values.append(self.expression())
            if self.peek() == ";":
                self.take()
        node = Node("record", first.start, self.take("}").end, values)
        node.names = names
        return node


def fields_of(node, token):
    """A part's field, and that one's, as `.size.width` after it names them."""
    at = token.start
    for name in token.text.split(".")[1:]:
        field = Token(f".{name}", at)
        node = Node("field", node.start, field.end, [node], name)
        node.field, at = field, field.end
    return node


def bare(node):
    while node.kind == "paren":
        node = node.parts[0]
    return node


# ---- Files

SIGNATURE = re.compile(r"^( *)(?:abbrev |unfoldable )?(?:pub )?([^\s:=(){}]+) : (.*(?:\n\1    \S.*)*)", re.M)
RECORD = re.compile(r"^pub record (\S+).*\n((?:  \S.*\n)+)", re.M)
STRUCT = re.compile(r"^pub struct (\w+) \{\n(.*?)^\}", re.M | re.S)


class File:
    """A file of definitions: the types of its names, and its clauses with what each gives."""

    def __init__(self, path):
        self.path, self.text = path, path.read_text()
        self.types = {m.group(2): arrows(m.group(3)) for m in SIGNATURE.finditer(self.text) if not m.group(3).startswith("Type")}
        self.clauses = []
        lines = self.text.splitlines(keepends=True)
        at = [0]
        for line in lines:
            at.append(at[-1] + len(line))
        for i, line in enumerate(lines):
            words = line.split()
            if not words or words[0] not in self.types or " = " not in line.rstrip() + " " or (len(words) > 1 and words[1] == ":"):
                continue
            indent = len(line) - len(line.lstrip())
            if indent > 2:  # a field of a record that is made
                continue
            last = i + 1
            while last < len(lines) and lines[last].strip() and len(lines[last]) - len(lines[last].lstrip()) > indent:
                last += 1
            equals = at[i] + re.search(r" =(\s)", line).end() - 1
            try:
                self.clauses.append(Clause(self, words[0], at[i], equals, at[last]))
            except (ValueError, IndexError) as fault:  # a form that no rule has so far
                print(f"left out: {path.stem}.antt:{i + 1}: {words[0]}: {fault}", file=sys.stderr)

    def brings(self, name):
        """Whether a `use` line brings a name in."""
        return any(name in re.findall(r"[^\s{},.]+", line) for line in re.findall(r"^use .*", self.text, re.M))


class Clause:
    def __init__(self, file, name, start, equals, end):
        self.file, self.name = file, name
        self.patterns = set(re.findall(r"[^\s(){};]+", file.text[start:equals])) - {name, "="}
        parser = Parser(tokens(file.text, equals, end))
        self.body = parser.expression()
        if parser.peek() is not None:
            raise ValueError(f"{parser.peek()} after a definition")


def arrows(text):
    """The types of a function's explicit parameters, from its signature."""
    parts, depth, last = [], 0, ""
    for word in re.findall(r"[(){}]|[^\s(){}]+", text):
        depth += (word in "({") - (word in ")}")
        if word == "→" and depth == 0:
            parts.append(last.strip())
            last = ""
        else:
            last += word + " "
    return [re.sub(r"^\( \S+ : (.*) \)$", r"\1", p) for p in parts if not p.startswith("{")]


def records(crate):
    """The fields of each record and struct that a crate or what it rests on declares, with their types."""
    found = []
    crates = [ROOT / "crates" / name for name in needed(crate)]
    for path in (path for folder in crates for path in sorted(folder.glob("specs/*.antt"))):
        for m in RECORD.finditer(path.read_text()):
            found.append(dict(re.findall(r"pub (\S+) : (.+)", m.group(2))))
    for path in (path for folder in crates for path in sorted(folder.glob("src/**/*.rt"))):
        for m in STRUCT.finditer(path.read_text()):
            # the rules have natural numbers for every width
            fields = re.findall(r"pub (\w+): (.+),", m.group(2))
            found.append({name: re.sub(r"\b(u8|u16|u32|u64|usize)\b", "ℕ", kind) for name, kind in fields})
    return found


# ---- What rests on what

USE = re.compile(r"^(?:ghost )?use Rattle\.(?!std\.)(\w+)\.(specs|proofs)\.([\w.]+?)(?:\.\{([^}]*)\}| as ([^\s;]+));?$", re.M)
STARTS = re.compile(r"^ {0,2}(?:abbrev |unfoldable )?(?:pub )?(?:record |data )?([^\s(){}:=]+)", re.M)
CONTRACT = re.compile(r"^pub (?:extern \"C\" )?fn .*?^\{", re.M | re.S)


class Module(NamedTuple):
    """A file of definitions or of proofs: V2 of specs, Pins.V2Pins of proofs."""

    crate: str
    kind: str
    name: str

    @property
    def path(self):
        return ROOT / "crates" / self.crate / self.kind / f"{self.name.replace('.', '/')}.antt"

    @property
    def used_as(self):
        """How other files of its crate call it."""
        return f"Rattle.{self.crate}.{self.kind}.{self.name}"


class Source:
    """What the words of a file mean that it brings in from files of the repository, or has itself."""

    def __init__(self, path, own=None):
        text = path.read_text()
        self.names, self.modules, self.parts = {}, {}, {}
        for crate, kind, module, names, alias in USE.findall(text):
            module = Module(crate, kind, module)
            if alias:
                self.modules[alias] = module
            for name in filter(None, map(str.strip, names.split(","))):
                there, _, here = name.partition(" as ")
                self.names[here or there] = module, there
        self.text = re.sub(r"^ *--.*\n?", "", USE.sub("", text), flags=re.M)
        if own:
            self.split(own)

    def split(self, own):
        """Which parts of the text each name stands in the margin of; a record's fields are no names of their own."""
        starts = []
        for part in re.split(r"\n\s*\n", self.text):
            starts = STARTS.findall(part) or starts
            for name in starts[:1] if re.match(r"(?:pub )?record ", part) else set(starts):
                self.parts.setdefault(name, []).append(part)
                self.names[name] = own, name

    def meant(self, text):
        """What the words of a text mean, as file and name."""
        for word in set(re.findall(r"[^\s(){};,]+", text)):
            first, *more = word.split(".")
            if first in self.modules and more:
                yield self.modules[first], more[0]
            elif first in self.names:
                yield self.names[first]


@functools.cache
def source(module):
    return Source(module.path, module) if module.path.exists() else None


def reached(roots):
    """All names that some names rest on, with these."""
    found, left = set(), list(roots)
    while left:
        if (at := left.pop()) not in found and (file := source(at[0])):
            found.add(at)
            for part in file.parts.get(at[1], []):
                left += file.meant(part)
    return found


@functools.cache
def rests_on(module, name):
    """The files that a name rests on."""
    return {m for m, _ in reached([(module, name)])}


@functools.cache
def contracts_rest_on():
    """The definitions that the contracts of the exports and of the job rest on, as file and name."""
    roots = []
    for path in [*(ROOT / "crates" / "razvolk" / "src").glob("*.rt"), ROOT / "crates" / "job" / "src" / "lib.rt"]:
        entry = Source(path)
        roots += [at for contract in CONTRACT.findall(entry.text) for at in entry.meant(contract)]
    return reached(roots)


def is_rules(file):
    """Whether a file's definitions are changed."""
    own = Module(file.path.parent.parent.name, "specs", file.path.stem)
    return file.path.stem in STATED or any((own, clause.name) in contracts_rest_on() for clause in file.clauses)


def check_names():
    """Names that stand in this file must be files' names, or a file that was renamed would be left out unseen."""
    names = {path.stem for path in ROOT.glob("crates/*/*/*.antt")}
    if gone := (EXAMPLES | STATED) - names:
        sys.exit(f"tests/mutate.py: no file has the name {', '.join(sorted(gone))}")


def moving(example, changed):
    """The files of a crate that are copied so that an example speaks of a changed copy of a file: these two and what lies between."""
    found, left = [], [example]
    while left:
        module = left.pop()
        if module in found:
            continue
        found.append(module)
        file = source(module)
        for other, name in file.meant(file.text):
            if other.crate == changed.crate and source(other) and (other == changed or changed in rests_on(other, name)):
                left.append(other)
    return found


# ---- Changes


class Change:
    def __init__(self, clause, what, edits):
        self.file, self.name, self.what, self.edits = clause.file, clause.name, what, edits
        first = min(e[0] for e in edits)
        self.line = self.file.text.count("\n", 0, first) + 1
        self.column = first - self.file.text.rfind("\n", 0, first)

    def applied(self):
        text = self.file.text
        for start, end, new in sorted(self.edits, reverse=True):
            text = text[:start] + new + text[end:]
        words = {word for edit in self.edits for word in re.findall(r"[^\s(){};]+", edit[2])}
        new = [name for name in BROUGHT if name.strip("◌") in words and not self.file.brings(name)]
        brought = f"use {PRELUDE}.{{{', '.join(new)}}}\n" if new else ""
        return re.sub(r"^(?=use )", brought, text, count=1, flags=re.M)

    def __str__(self):
        return f"{self.file.path.stem}.antt:{self.line}:{self.column}: {self.name}: {self.what}"


def short(text):
    text = " ".join(text.split())
    return text if len(text) <= 60 else text[:57] + ".."


class Changes:
    """Every change of a crate's clauses."""

    def __init__(self, files, crate):
        self.files, self.records, self.found, self.said = files, records(crate), [], Counter()
        for file in files.values():
            if not is_rules(file):
                continue
            for clause in file.clauses:
                self.clause = clause
                self.walk(clause.body)
            self.cases(file)

    def text(self, node):
        return self.clause.file.text[node.start : node.end]

    def add(self, what, *edits):
        change = Change(self.clause, what, list(edits))
        if change.applied() == change.file.text:
            return
        self.said[str(change)] += 1
        if self.said[str(change)] > 1:  # another change that is told by the same words
            change.what += f" ({self.said[str(change)]})"
        self.found.append(change)

    def replace(self, node, new):
        self.add(f"{short(self.text(node))} → {short(new)}", (node.start, node.end, new))

    def exchange(self, a, b):
        if self.text(a) != self.text(b):
            self.add(
                f"{short(self.text(a))} ↔ {short(self.text(b))}", (a.start, a.end, self.text(b)), (b.start, b.end, self.text(a))
            )

    def walk(self, node):
        getattr(self, "of_" + node.kind)(node)
        if not (node.kind == "call" and self.integer(node)):
            for part in node.parts:
                self.walk(part)

    def of_paren(self, node):
        pass

    of_let = of_lambda = of_paren

    def of_number(self, node):
        n = int(node.name.replace("_", ""), 0)
        self.replace(node, str(n + 1))
        if n > 0:
            self.replace(node, str(n - 1))

    def of_name(self, node):
        other = {"true": "false", "false": "true", "min": "max", "max": "min", "ltb": "leb", "leb": "ltb"}.get(node.name)
        if other:
            self.replace(node, other)

    def of_field(self, node):
        name = node.name
        others = {o for r in self.records if name in r for o in r if o != name and r[o] == r[name]}
        for other in sorted(others):
            self.add(f"{short(self.text(node))} → .{other}", (node.field.start, node.field.end, "." + other))

    def of_infix(self, node):
        left, right = node.parts
        other = {"&&": "||", "||": "&&", "+": "-", "-": "+", "/": "%", "%": "/", "+ℤ": "*ℤ", "*ℤ": "+ℤ", "*": "+", "^": "*"}
        if node.name in other:
            new = other[node.name]
            text = f"({self.text(left)}) {new} ({self.text(right)})"
            self.add(f"{short(self.text(node))}: {node.name} → {new}", (node.start, node.end, f"({text})"))
        if node.name in {"-", "/", "%", "^", "++"}:
            self.add(
                f"{short(self.text(node))}: exchanged",
                (node.start, node.end, f"(({self.text(right)}) {node.name} ({self.text(left)}))"),
            )
        if node.name == "∷" and right.kind == "infix" and right.name == "∷":
            self.exchange(left, right.parts[0])

    def of_record(self, node):
        kinds = next((r for r in self.records if set(r) == set(node.names)), {})
        for i, a in enumerate(node.names):
            for j in range(i):
                if kinds and kinds[a] == kinds[node.names[j]]:
                    self.exchange(node.parts[j], node.parts[i])

    def integer(self, node):
        return node.parts[0].name in {"pos", "negsuc"} and len(node.parts) == 2 and node.parts[1].kind == "number"

    def of_call(self, node):
        head, arguments = node.parts[0], node.parts[1:]
        if self.integer(node):
            n = int(arguments[0].name.replace("_", ""), 0)
            n = n if head.name == "pos" else -n - 1
            for m in (n + 1, n - 1):
                self.replace(node, f"pos {m}" if m >= 0 else f"negsuc {-m - 1}")
        elif head.kind == "name":
            self.of_function(node, head.name, arguments)

    def of_function(self, node, name, arguments):
        if name == "cond" and len(arguments) == 3:
            test, yes, no = arguments
            self.exchange(yes, no)
            self.add(f"{short(self.text(node))}: always its first", (node.start, node.end, f"({self.text(yes)})"))
            self.add(f"{short(self.text(node))}: always its second", (node.start, node.end, f"({self.text(no)})"))
            inner = bare(no)
            if inner.kind == "call" and inner.parts[0].name == "cond":
                second, first = inner.parts[1], inner.parts[2]
                edits = [(a.start, a.end, self.text(b)) for a, b in ((test, second), (second, test), (yes, first), (first, yes))]
                self.add(f"{short(self.text(test))}, {short(self.text(second))}: tested in the other order", *edits)
        elif name in {"ltb", "leb"}:
            self.exchange(*arguments)
        elif name == "suc":
            self.replace(node, self.text(arguments[0]))
            self.replace(node, f"suc (suc {self.text(arguments[0])})")
        elif name == "not":
            self.replace(node, f"({self.text(arguments[0])})")
        else:
            kinds = self.parameters(name, len(arguments))
            for i, a in enumerate(arguments):
                for j in range(i):
                    if kinds[i] is not None and kinds[i] == kinds[j]:
                        self.exchange(arguments[j], a)

    def parameters(self, name, count):
        """The types of a function's parameters; None where they aren't known."""
        if name in ("get_or", "slice_index"):
            return [None, "ℕ", "ℕ", None][:count]
        file, _, name = name.rpartition(".")
        files = [self.files[file]] if file in self.files else [self.clause.file, *self.files.values()]
        kinds = next((f.types[name] for f in files if name in f.types), [])
        if count > len(kinds):  # called from outside its section, with what the section is over
            kinds = [None] * (count - len(kinds)) + kinds
        return kinds + [None] * count

    def cases(self, file):
        """The results of two clauses of one function exchanged, where each can be said with the other's names."""
        for i, a in enumerate(file.clauses):
            for b in file.clauses[:i]:
                if a.name == b.name and self.sayable(a, b) and self.sayable(b, a):
                    self.clause = b
                    self.exchange(b.body, a.body)

    @staticmethod
    def sayable(body_of, patterns_of):
        words = set(re.findall(r"[^\s(){};]+", body_of.file.text[body_of.body.start : body_of.body.end]))
        return not (words & body_of.patterns) - patterns_of.patterns


# ---- Checks


def needed(crate):
    """A crate and the crates of the repository that it rests on."""
    lines = (line.split("#")[0] for line in (ROOT / "crates.txt").read_text().splitlines())
    uses = {line.split()[0].rstrip(":"): line.split(":")[1].split() for line in lines if ":" in line}
    found, left = [], [crate]
    while left:
        name = left.pop()
        if name in uses and name not in found:
            found.append(name)
            left += uses[name]
    return {name: uses[name] for name in found}


def kept_by_rt(folder, names):
    """What a copy of the crates leaves out: what rt keeps of each."""
    return ["out", "must-fail", "must-fail-more"] if Path(folder).parent == ROOT / "crates" else []


class Copy:
    """The crate with all that it rests on, in a folder of its own, proved as it is; each change is made in it and taken back.
    Of `examples` it has the worked examples, and no theorem and no function."""

    def __init__(self, crate, home, examples):
        self.crate, self.home = crate, home
        self.saved, self.base = home / "crates" / crate / "out", home / "base"
        shutil.rmtree(home, ignore_errors=True)
        for name in (crates := needed(crate)):
            shutil.copytree(ROOT / "crates" / name, home / "crates" / name, ignore=kept_by_rt)
        (home / "crates.txt").write_text("".join(f"{' '.join([name + ':', *uses])}\n" for name, uses in crates.items()))
        if examples:
            self.leave_examples(home / "crates" / crate / "proofs")
            self.leave_types(home / "crates" / crate / "src")
        # What is proved already, here or in another checkout, rt does not prove again.
        status, said = self.rt("check")
        if status != 0:
            raise RuntimeError(f"{home}: the crate as it is is not proved:\n{said}")
        shutil.copytree(self.saved, self.base, symlinks=True)

    def restore(self):
        """Brings back what was saved of the crate as it is: the files that differ in time or size."""
        told = lambda folder: {path.relative_to(folder): path.stat() for path in folder.rglob("*") if path.is_file()}
        base, now = told(self.base), told(self.saved)
        for path in now.keys() - base.keys():
            (self.saved / path).unlink()
        for path, stat in base.items():
            if path not in now or (now[path].st_mtime_ns, now[path].st_size) != (stat.st_mtime_ns, stat.st_size):
                (self.saved / path).parent.mkdir(parents=True, exist_ok=True)
                # Another checkout may share the file.
                (self.saved / path).unlink(missing_ok=True)
                shutil.copy2(self.base / path, self.saved / path)

    @staticmethod
    def leave_examples(proofs):
        """Takes out all proofs but those of worked examples, which stand in files of their own and in folders of these names."""
        for path in proofs.iterdir():
            if path.stem not in EXAMPLES:
                shutil.rmtree(path) if path.is_dir() else path.unlink()
        (proofs / "Lib.antt").write_text("".join(f"pub mod {path.stem}\n" for path in sorted(proofs.glob("*.antt"))))

    @staticmethod
    def leave_types(source):
        """Takes out all functions, and the names that nothing needs without them: types and constants stay, which definitions use."""
        taken = set()
        texts = {path: path.read_text() for path in source.glob("**/*.rt")}
        for path, text in texts.items():
            taken |= set(re.findall(r"^(?:pub )?(?:extern \"C\" )?(?:fn|trait) (\w+)", text, flags=re.M))
            texts[path] = FUNCTION.sub("", TRAIT.sub("", text))
        for path, text in texts.items():
            body = re.sub(r"^(ghost |pub )?use .*\n", "", text, flags=re.M)

            def left(m):
                """What is left of a line that brings names in, one or several in braces."""
                names = [name for name in re.findall(r"\w+", m[3]) if m[1] and name not in taken or re.search(rf"\b{name}\b", body)]
                return f"{m[1] or ''}use {m[2]}::{{{', '.join(names)}}};\n" if names else ""

            text = re.sub(r"^(pub )?use (.*)::\{?(\w+(?:, \w+)*)\}?;\n", left, text, flags=re.M)
            path.write_text(re.sub(r"^ghost use .*\n", "", text, flags=re.M))

    def said_of_each(self, changes, moved):
        """What is said of changes of one file that are made at once, each in copies of some files: the errors of each; None if
        they can't be told from each other. A change may be None, for the file as it is."""
        libs = {kind: self.home / "crates" / self.crate / kind / "Lib.antt" for kind in ("specs", "proofs")}
        texts = {kind: lib.read_text() for kind, lib in libs.items()}
        for n, change in enumerate(changes):
            self.write_copies(change, moved, f"Change{n}", libs)
        status, said = self.rt("check")
        for kind, lib in libs.items():
            lib.write_text(texts[kind])
            for path in lib.parent.glob("Change*"):
                shutil.rmtree(path) if path.is_dir() else path.unlink()
        self.restore()
        errors = [line for line in said.splitlines() if ": error: " in line]
        each = [[line for line in errors if re.search(rf"/Change{n}/", line)] for n in range(len(changes))]
        return each if status in {0, 1} and sum(map(len, each)) == len(errors) else None

    def write_copies(self, change, moved, folder, libs):
        """Writes copies of some files into a folder beside them, one of them changed, that speak of each other."""
        new = {module.used_as: f"{module.used_as.rpartition(module.name)[0]}{folder}.{module.path.stem}" for module in moved}
        any_used = re.compile("|".join(rf"{re.escape(used)}(?![\w-])" for used in sorted(new, key=len, reverse=True)))
        for kind, lib in libs.items():
            (lib.parent / folder).mkdir()
            there = [module for module in moved if module.kind == kind]
            (lib.parent / f"{folder}.antt").write_text("".join(f"pub mod {module.path.stem}\n" for module in there))
            lib.write_text(f"{lib.read_text()}pub mod {folder}\n")
            for module in there:
                is_changed = change and change.file.path == module.path
                text = change.applied() if is_changed else (self.home / module.path.relative_to(ROOT)).read_text()
                (lib.parent / folder / f"{module.path.stem}.antt").write_text(any_used.sub(lambda m: new[m[0]], text))

    def rt(self, verb):
        run = subprocess.Popen(
            ["rt", verb, "--jobs", "1"],
            cwd=self.home / "crates" / self.crate,
            stdout=subprocess.PIPE,
            stderr=subprocess.STDOUT,
            text=True,
            start_new_session=True,
        )
        try:
            said, _ = run.communicate(timeout=SECONDS)
        except subprocess.TimeoutExpired:
            os.killpg(run.pid, signal.SIGKILL)
            run.wait()
            return 3, f"no answer in {SECONDS} seconds"
        return run.returncode, said

    def said_of(self, change, verbs):
        """What the first of some verbs that doesn't pass says of a change, or the last."""
        path = self.home / change.file.path.relative_to(ROOT)
        path.write_text(change.applied())
        for verb in verbs:
            status, said = self.rt(verb)
            if status != 0:
                break
        path.write_text(change.file.text)
        self.restore()
        return status, said


class Worker:
    """Tells of a change whether the examples refuse it, and if they don't whether the theorems do."""

    def __init__(self, crate, home):
        self.crate, self.home = crate, home
        self.examples = Copy(crate, self.home / "examples", True)

    @functools.cached_property
    def whole(self):
        return Copy(self.crate, self.home / "whole", False)

    @functools.cache
    def groups(self, path):
        """The two least groups of files that hold a file to examples: an example and what lies between them. Copies of a group that
        are as they are pass."""
        changed, proofs = Module(self.crate, "specs", path.stem), ROOT / "crates" / self.crate / "proofs"
        there = (p.relative_to(proofs).with_suffix("") for p in sorted(proofs.rglob("*.antt")))
        examples = [Module(self.crate, "proofs", ".".join(p.parts)) for p in there if p.parts[0] in EXAMPLES]
        groups = [moving(example, changed) for example in examples if "pub mod" not in source(example).text]
        groups = [group for group in groups if changed in group]
        groups.sort(key=lambda group: (len(group), path.stem not in group[0].name))
        return [group for group in groups[:2] if self.examples.said_of_each([None], group) == [[]]]

    def outcomes(self, changes):
        """Each of some changes of one file, with its outcome and why."""
        for group in self.groups(changes[0].file.path):
            found = list(self.refused(changes, group))
            yield from found
            settled = {change for change, _, _ in found}
            changes = [change for change in changes if change not in settled]
        for change in changes:
            yield change, *self.outcome(change)

    def refused(self, changes, group):
        """Those of some changes that are no definitions, or that a group's example refuses."""
        each = self.examples.said_of_each(changes, group) if changes else []
        if each is None and len(changes) > 1:
            half = len(changes) // 2
            yield from self.refused(changes[:half], group)
            yield from self.refused(changes[half:], group)
        for change, errors in zip(changes, each or []):
            no_definition = [line for line in errors if "/specs/" in line.split(": error: ")[0]]
            if errors:
                yield change, ALL[0 if no_definition else 1], (no_definition or errors)[0]

    def outcome(self, change):
        status, said = self.examples.said_of(change, ["check"])
        if status == 0:
            status, said = self.whole.said_of(change, ["check", "verdict"])
        if status == 0:
            return "STILL PROVES", ""
        errors = [line for line in said.splitlines() if ": error: " in line]
        if any("/specs/" in line.split(": error: ")[0] for line in errors):
            return "no definition", next(e for e in errors if "/specs/" in e)
        if status != 1:
            return "no answer", said[-300:]
        where = [line for line in errors if IN_EXAMPLES.search(line)]
        first = (where or errors or [said[-300:]])[0]
        return ("refused by an example" if where else "refused by a law"), first


def new_lines(commit, path):
    """The lines of a file that are new since a commit."""
    said = subprocess.run(["git", "diff", "-U0", commit, "--", path], cwd=ROOT, capture_output=True, text=True, check=True).stdout
    parts = re.findall(r"^@@ -\S+ \+(\d+)(?:,(\d+))? @@", said, flags=re.M)
    return {int(first) + k for first, count in parts for k in range(int(count or 1))}


def main():
    parse = argparse.ArgumentParser()
    parse.add_argument("--crate", default="rules")
    parse.add_argument("--file", default="")
    parse.add_argument("--since", default="", help="only what is new since a commit")
    parse.add_argument("--count", type=int, default=0)
    parse.add_argument("--seed", type=int, default=1)
    parse.add_argument("--workers", type=int, default=2)
    parse.add_argument("--resume", action="store_true", help="only what has no outcome so far")
    parse.add_argument("--again", action="store_true", help="only what no example refused so far")
    parse.add_argument("--list", action="store_true", help="print the changes, and check none")
    given = parse.parse_args()
    check_names()
    folder = ROOT / "crates" / given.crate / "specs"
    files = {path.stem: File(path) for path in sorted(folder.glob("*.antt"))}
    changes = Changes(files, given.crate).found
    if given.file:
        changes = [c for c in changes if c.file.path.stem == given.file.removesuffix(".antt")]
    if given.since:
        new = {file.path: new_lines(given.since, file.path) for file in files.values()}
        changes = [c for c in changes if c.line in new[c.file.path]]
    if given.count:
        changes = random.Random(given.seed).sample(changes, min(given.count, len(changes)))
    if given.list:
        print("\n".join(map(str, changes)), f"{len(changes)} changes", sep="\n")
        return
    log = ROOT / "target" / "mutate" / f"{given.crate}.txt"
    done = known(log, changes, ALL if given.resume else SETTLED) if given.resume or given.again else {}
    try_all([change for change in changes if change not in done], done, given.crate, given.workers, log)
    for file in sorted({change.file.path.stem for change in done}):
        print(figures(file, [line for change, line in done.items() if change.file.path.stem == file]))
    print(figures(given.crate, list(done.values())))
    if len(done) != len(changes):
        sys.exit(1)


def known(log, changes, outcomes):
    """The lines of a log that have one of some outcomes, by change."""
    lines = {line.split("  | ")[0]: line for line in log.read_text().splitlines()} if log.exists() else {}
    found = ((change, lines.get(f"{outcome}: {change}")) for change in changes for outcome in outcomes)
    return {change: line for change, line in found if line}


def try_all(changes, done, crate, workers, log):
    """Tries changes, some at a time, and notes each one's outcome in `done` and in the log."""
    left, printing = queue.Queue(), threading.Lock()
    for file in {change.file.path: change.file for change in changes}.values():
        those = [change for change in changes if change.file is file]
        for start in range(0, len(those), AT_ONCE):
            left.put(those[start : start + AT_ONCE])
    log.parent.mkdir(parents=True, exist_ok=True)
    log.write_text("".join(f"{line}\n" for line in done.values()))

    def work(number):
        worker = Worker(crate, Path(copies) / str(number))
        while True:
            try:
                some = left.get_nowait()
            except queue.Empty:
                return
            for change, found, why in worker.outcomes(some):
                with printing, log.open("a") as out:
                    done[change] = f"{found}: {change}{'  | ' + ' '.join(why.split()) if why else ''}"
                    print(done[change], file=out, flush=True)
                    if found not in SETTLED:
                        print(f"{found}: {change}", flush=True)

    # Not in the repository, where `rt ci` refuses another crates.txt.
    with tempfile.TemporaryDirectory(prefix="mutate-") as copies:
        threads = [threading.Thread(target=work, args=(n,)) for n in range(min(workers, max(1, len(changes))))]
        for thread in threads:
            thread.start()
        for thread in threads:
            thread.join()


def figures(name, lines):
    none, example, law, open_, proves = (sum(line.startswith(outcome) for line in lines) for outcome in ALL)
    return (
        f"{name}: {len(lines)} changes, {none} no definition, {example} refused by an example, {law} by a law alone, "
        f"{open_} without an answer, {proves} still prove"
    )


if __name__ == "__main__":
    main()
