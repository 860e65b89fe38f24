"""What ctypes is told of the libraries is what the headers declare."""

from __future__ import annotations

import ctypes
import os
import re
from pathlib import Path
from typing import Any

import pytest
import razvolk
from razvolk import _library

INCLUDE = Path(os.environ["RAZVOLK_ROOT"], "include")

STRUCTURES = {
    "razvolk_answer": _library.Answer,
    "razvolk_written": _library.Written,
    "razvolk_blanked": _library.Blanked,
    "razvolk_exported": _library.Exported,
    "razvolk_srw_answer": _library.FileAnswer,
    "razvolk_srw_frame": _library.Found,
}
NUMBERS: dict[str, Any] = {
    "uint8_t": ctypes.c_uint8,
    "uint16_t": ctypes.c_uint16,
    "uint32_t": ctypes.c_uint32,
    "uint64_t": ctypes.c_uint64,
    "size_t": ctypes.c_size_t,
    **STRUCTURES,
}


def declared(header: str) -> str:
    """A header without comments and macros."""
    text = re.sub(r"/\*.*?\*/", "", (INCLUDE / header).read_text(), flags=re.S)
    return re.sub(r"^#(.*\\\n)*.*$", "", text, flags=re.M)


def ctype(argument: str) -> object:
    """The type of an argument or a field, by its words in C."""
    if "*" not in argument:
        return NUMBERS[argument.split()[0]]
    if "char *text" in argument:
        return ctypes.c_char_p
    return ctypes.POINTER(_library.Found) if "razvolk_srw_frame" in argument else ctypes.c_void_p


@pytest.mark.parametrize("header", ["razvolk.h", "razvolk_srw.h"])
def test_functions(header: str) -> None:
    library = _library.razvolk if header == "razvolk.h" else _library.srw
    known: dict[str, Any] = _library._RAZVOLK if header == "razvolk.h" else _library._SRW
    functions = re.findall(r"^(\w+) (razvolk_\w+)\(([^)]*)\);", declared(header), flags=re.M)
    found = {
        name: (NUMBERS[result], [ctype(part) for part in words.split(",")])
        for result, name, words in functions
        if result in NUMBERS
    }
    assert known.keys() <= found.keys() and len(known) > 2
    for name in known:
        result, arguments = found[name]
        assert getattr(library, name).restype is result, name
        assert list(getattr(library, name).argtypes) == arguments, name


@pytest.mark.parametrize("header", ["razvolk.h", "razvolk_srw.h"])
def test_structures(header: str) -> None:
    found = 0
    for body, name in re.findall(r"typedef struct \{(.*?)\} (\w+);", declared(header), flags=re.S):
        if name not in STRUCTURES:
            continue
        found += 1
        fields: list[tuple[str, Any]] = []
        for field in body.strip().rstrip(";").split(";"):
            field = field.strip()
            words = re.fullmatch(r"(?:const )?\w+ (\*?)(\w+)(?:\[(\d+)\])?", field)
            assert words, field
            kind = ctype(field.replace("const ", ""))
            many = words.group(3)
            fields.append((words.group(2), ctypes.c_uint8 * int(many) if many else kind))
        assert fields == STRUCTURES[name]._fields_, name
    assert found == (4 if header == "razvolk.h" else 2)


def test_numbers() -> None:
    text = (INCLUDE / "razvolk.h").read_text()
    names = {name: int(value) for name, value in re.findall(r"#define RAZVOLK_(\w+) +(\d+)u", text)}
    assert names["MOST_SIDE"] == razvolk.MAX_SIDE
    assert (names["OLD"], names["FILLER"]) == (razvolk.OLD, razvolk.MISSING)
    assert f'#define RAZVOLK_VERSION "{razvolk.__version__}"' in text
    # Each refusal has words of its own.
    texts = {razvolk.Refusal(number).text for number in range(1, 22)}
    assert len(texts) == 21 and "" not in texts


def test_all_is_told() -> None:
    assert sorted(razvolk.__all__) == razvolk.__all__ or set(razvolk.__all__) <= set(dir(razvolk))
    for name in razvolk.__all__:
        value = getattr(razvolk, name)
        assert isinstance(value, int) or value.__doc__, name
