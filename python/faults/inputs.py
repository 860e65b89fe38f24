"""Source files of every kind that a queue meets: whole, upward, cut, damaged, hostile, missing. A seed picks them."""

from __future__ import annotations

import os
import sys
from pathlib import Path

import numpy as np

sys.path.append(str(Path(__file__).resolve().parent.parent / "tests"))

import razvolk  # noqa: E402
from frames import Call, any_call, picture  # noqa: E402

EACH = 12

STATUSES = {
    "whole": {"clean"},
    "upward": {"hold_back"},
    "cut": {"incomplete", "refused", "hold_back"},
    "damaged": {"clean", "hold_back", "incomplete", "refused"},
    "hostile": {"unreadable", "refused"},
    "missing": {"unreadable"},
}
"""How jobs of each kind may end."""


def make(folder: Path, seed: int) -> dict[str, list[str]]:
    """Writes the files, and tells their names by kind."""
    rng = np.random.default_rng(seed)
    folder.mkdir(parents=True)
    (folder / ".razvolk").touch()
    made: dict[str, list[str]] = {"hostile": _hostile(folder, rng)}
    made["missing"] = ["missing.srw", "no/folder/frame.srw", "whole0.srw/frame.srw"]
    kinds = {"whole": _whole, "upward": _upward, "cut": _cut, "damaged": _damaged}
    for kind, file in kinds.items():
        made[kind] = [f"{kind}{i}.srw" for i in range(EACH)]
        for name in made[kind]:
            (folder / name).write_bytes(file(rng))
    return made


def _frame(rng: np.random.Generator, v2: bool) -> Call:
    """A clean frame."""
    width, height = 16 * int(rng.integers(2, 12)), int(rng.integers(8, 80))
    stream, offsets = razvolk.write_v0(picture(rng, width, height))
    if v2:
        stream = razvolk.v0_to_v2(stream, offsets, width, height).stream
    return Call(stream.tobytes(), None if v2 else offsets.tolist(), width, height)


def _whole(rng: np.random.Generator) -> bytes:
    return _frame(rng, bool(rng.integers(3) == 0)).file()


def _upward(rng: np.random.Generator) -> bytes:
    """A V0 frame whose first block predicts from rows that don't exist: what the buffer held shows through."""
    call = _frame(rng, False)
    stream = bytearray(call.stream)
    stream[3] |= 0x80
    return call._replace(stream=bytes(stream)).file()


def _cut(rng: np.random.Generator) -> bytes:
    """An upload that broke off somewhere in its stream."""
    call = _frame(rng, bool(rng.integers(3) == 0))
    lost = int(rng.integers(64, len(call.stream)))
    return call.file()[:-lost]


def _damaged(rng: np.random.Generator) -> bytes:
    return any_call(rng, 100).file()


def _hostile(folder: Path, rng: np.random.Generator) -> list[str]:
    """What only somebody hostile sends, or nobody looked at."""
    huge = Call(b"", None, 16_384, 16_384)
    files = {
        "empty.srw": b"",
        "head.srw": b"II*\0\x08\0\0\0",
        "noise.srw": rng.bytes(5_000),
        "huge.srw": huge.file(),
        "wide.srw": huge._replace(width=100_000, height=3).file(),
        "narrow.srw": huge._replace(width=31, height=1).file(),
        "name\n\x1b[31m ö.srw": b"MM\0*",
    }
    for name, data in files.items():
        (folder / name).write_bytes(data)
    (folder / "folder.srw").mkdir()
    os.mkfifo(folder / "pipe.srw")
    os.symlink("loop.srw", folder / "loop.srw")
    os.symlink("/dev/zero", folder / "zero.srw")
    return [*files, "folder.srw", "pipe.srw", "loop.srw", "zero.srw"]
