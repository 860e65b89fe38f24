"""Reads the declarations of a C header, and writes the table of its functions that tests/boundary.c calls.

Nothing is known beside the declarations: a pointer is followed by its length, a number of elements with the pointer's name and
`_len`; what is const is only read; all else is a number or a structure by value.
"""

import re
from dataclasses import dataclass
from pathlib import Path

from archive import ARCHIVE, HEADER, TOP, Fault, compiler, run

NUMBERS = {"uint8_t": 1, "uint16_t": 2, "uint32_t": 4, "uint64_t": 8, "size_t": 8}


@dataclass
class Function:
    name: str
    returns: str
    parameters: list[tuple[str, str]]  # type and name


def declarations(header: Path) -> tuple[dict[str, list[tuple[str, str]]], list[Function]]:
    """Returns the header's structures, each with the types and names of its fields, and its functions."""
    text = re.sub(r"/\*.*?\*/", "", header.read_text(), flags=re.S)
    text = re.sub(r"^\s*#.*(\\\n.*)*", "", text, flags=re.M)
    structures = {
        name: re.findall(r"(\w+)\s+(\w+)\s*;", body)
        for body, name in re.findall(r"typedef\s+struct\s*\{(.*?)\}\s*(\w+)\s*;", text, flags=re.S)
    }
    functions = []
    for returns, name, inside in re.findall(r"(\w+)\s+(razvolk_\w+)\s*\(([^)]*)\)\s*;", text):
        parameters = []
        for one in inside.split(","):
            parts = re.fullmatch(r"\s*((?:const\s+)?\w+\s*\*?)\s*(\w+)\s*", one)
            if not parts:
                raise Fault(f"{name}: the parameter {one} isn't understood")
            parameters.append((re.sub(r"\s+", " ", parts[1]).strip(), parts[2]))
        functions.append(Function(name, returns, parameters))
    return structures, functions


def words_of(kind: str, place: str, structures: dict[str, list[tuple[str, str]]]) -> list[str]:
    """Returns the numbers that a structure is made of, as C expressions."""
    if kind in NUMBERS:
        return [place]
    if kind not in structures:
        raise Fault(f"the type {kind} isn't understood")
    return [word for of, name in structures[kind] for word in words_of(of, f"{place}.{name}", structures)]


def entry(function: Function, structures: dict[str, list[tuple[str, str]]]) -> tuple[str, str]:
    """Returns the C function that makes a call out of pointers and numbers, and the function's row in the table."""
    given: list[str] = []
    row: list[str] = []
    copies: list[str] = []
    rest = list(function.parameters)
    while rest:
        kind, name = rest.pop(0)
        k = len(row)
        if kind.endswith("*"):
            if not rest or rest.pop(0) != ("size_t", f"{name}_len"):
                raise Fault(f"{function.name}: {name} isn't followed by its length")
            element = kind.replace("const ", "").rstrip(" *")
            given += [f"({kind})data[{k}]", f"(size_t)values[{k}]"]
            row.append(f"{{{'READ' if kind.startswith('const ') else 'WRITTEN'}, {NUMBERS[element]}}}")
        elif kind in NUMBERS:
            given.append(f"({kind})values[{k}]")
            row.append(f"{{NUMBER, {NUMBERS[kind]}}}")
        else:
            words_of(kind, name, structures)
            copies.append(f"    {kind} {name};\n    memcpy(&{name}, data[{k}], sizeof {name});\n")
            given.append(name)
            row.append(f"{{STRUCTURE, sizeof({kind})}}")
    words = words_of(function.returns, "answer", structures)
    stored = "".join(f"    words[{at}] = {word};\n" for at, word in enumerate(words))
    call = (
        f"static void call_{function.name}(void **data, const uint64_t *values, uint64_t *words) {{\n    (void)data, (void)values;\n"
        f"{''.join(copies)}    {function.returns} answer = {function.name}({', '.join(given)});\n{stored}    PLANTED_AFTER\n}}\n"
    )
    number = next((at for at, word in enumerate(words) if word.endswith(".number")), -1)
    return call, f'    {{"{function.name}", {len(row)}, {{{", ".join(row)}}}, {len(words)}, {number}, call_{function.name}}},\n'


def table(header: Path, planted: str) -> str:
    """Returns the table in C. What is planted is run after each call."""
    structures, functions = declarations(header)
    if not functions:
        raise Fault(f"{header} declares no function")
    made = [entry(function, structures) for function in functions]
    calls, rows = "".join(call for call, _ in made), "".join(row for _, row in made)
    return f"#define PLANTED_AFTER {planted}\n{calls}\nstatic const export exports[] = {{\n{rows}}};\n"


def build(folder: Path, planted: str = "") -> Path:
    """Compiles tests/boundary.c with the header's table, and returns the program."""
    (folder / "exports.h").write_text(table(HEADER, planted))
    program = folder / ("planted" if planted else "boundary")
    run(*compiler(), "-g", "-O1", "-std=c99", "-Wall", "-Wextra", "-pedantic", "-Werror", "-pthread", "-DWITH_VALGRIND",
        f"-I{TOP}/include", f"-I{folder}", TOP / "tests/boundary.c", ARCHIVE, "-o", program)  # fmt: skip
    return program
