"""The two shared libraries, as `include/razvolk.h` and `include/razvolk_srw.h` declare them.

A call through ctypes lets other threads run. No function keeps state, so that any number of threads may call at once.
"""

from __future__ import annotations

import ctypes
import os
import sys
from collections.abc import Mapping
from ctypes import POINTER, c_char_p, c_size_t, c_uint8, c_uint16, c_uint32, c_uint64, c_void_p
from typing import Any


class Answer(ctypes.Structure):
    """What a decoder or a writer answers: number 0 is done."""

    _fields_ = [("number", c_uint32), ("row", c_uint32), ("filler", c_uint64)]


class Written(ctypes.Structure):
    """What a writer answers."""

    _fields_ = [("answer", Answer), ("length", c_uint64)]


class Blanked(ctypes.Structure):
    """What a call that blanks answers."""

    _fields_ = [("answer", Answer), ("count", c_uint64), ("runs", c_uint64)]


class Exported(ctypes.Structure):
    """What the archive export answers."""

    _fields_ = [("answer", Answer), ("count", c_uint64), ("runs", c_uint64), ("length", c_uint64)]


class FileAnswer(ctypes.Structure):
    """What is answered of a file: number 0 if its frame is found."""

    _fields_ = [("number", c_uint32), ("value", c_uint32)]


class Found(ctypes.Structure):
    """The frame of a file."""

    _fields_ = [
        ("version", c_uint32),
        ("bits", c_uint32),
        ("width", c_size_t),
        ("height", c_size_t),
        ("stream", c_void_p),
        ("stream_len", c_size_t),
        ("missing", c_size_t),
        ("offsets", c_size_t),
        ("model", c_void_p),
        ("model_len", c_size_t),
        ("colours", c_uint8 * 4),
        ("orientation", c_uint32),
    ]


# How an argument list is made up: a slice is a pointer and a length.
_SLICE: list[Any] = [c_void_p, c_size_t]
_SIZE: list[Any] = [c_size_t, c_size_t]
_V0 = _SLICE + _SLICE + _SIZE

_RAZVOLK: dict[str, tuple[type, list[Any]]] = {
    "razvolk_decode_v0_reference_map": (Answer, _V0 + _SLICE + _SLICE),
    "razvolk_decode_v0_clean_map": (Answer, _V0 + _SLICE + _SLICE),
    "razvolk_decode_v0_bands": (Answer, _V0 + _SLICE + _SLICE + _SIZE + _SLICE),
    "razvolk_decode_v2_map": (Answer, _SLICE + _SIZE + _SLICE + _SLICE),
    "razvolk_to_planes": (Answer, _SLICE + _SIZE + _SLICE),
    "razvolk_from_planes": (Answer, _SLICE + _SIZE + _SLICE),
    "razvolk_write_v0": (Written, _SLICE + _SIZE + _SLICE + _SLICE),
    "razvolk_blank": (Blanked, _SLICE + _SLICE + _SIZE + _SLICE),
    "razvolk_blank_with": (Blanked, _SLICE + _SLICE + _SIZE + [c_uint16] + _SLICE),
    "razvolk_export_v0": (Exported, _SLICE + _SLICE + _SIZE + _SLICE + _SLICE + _SLICE),
    "razvolk_v0_to_v2": (Written, _V0 + _SLICE + _SLICE + _SLICE),
    "razvolk_check_packed": (Answer, _V0 + _SLICE + _SLICE),
}

_SRW: dict[str, tuple[Any, list[Any]]] = {
    "razvolk_srw_find": (FileAnswer, _SLICE + [POINTER(Found)] + _SLICE),
    "razvolk_srw_write": (c_size_t, [POINTER(Found), c_void_p] + _SLICE),
    "razvolk_srw_text": (c_size_t, _SLICE + [c_char_p, c_size_t]),
    "razvolk_srw_refusal_text": (c_size_t, [c_uint32, c_uint32, c_char_p, c_size_t]),
}


def _load(name: str, functions: Mapping[str, tuple[Any, list[Any]]]) -> ctypes.CDLL:
    path = os.path.join(os.path.dirname(os.path.abspath(__file__)), "lib", name)
    if not sys.platform.startswith("linux"):
        raise ImportError(f"razvolk runs on x86-64 Linux, and this is {sys.platform}")
    try:
        library = ctypes.CDLL(path)
    except OSError as fault:
        raise ImportError(
            f"{path} can't be loaded (razvolk runs on x86-64 Linux): {fault}"
        ) from fault
    for function, (result, arguments) in functions.items():
        getattr(library, function).restype = result
        getattr(library, function).argtypes = arguments
    return library


razvolk = _load("librazvolk.so.0", _RAZVOLK)
srw = _load("librazvolk_srw.so.0", _SRW)
