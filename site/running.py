"""The decoder at work on the README's small frame: what it leaves after each row, after the exchange, and of cut streams."""

from __future__ import annotations

import ctypes
import re
import struct
from dataclasses import dataclass
from typing import Any

from repository import Repository

# What the lent samples hold: one number for each place.
OLD = 7


@dataclass(frozen=True)
class Frame:
    """A coded frame."""

    stream: bytes
    offsets: list[int]
    width: int
    height: int


@dataclass(frozen=True)
class Step:
    """Samples and map bytes after a step, and what the step is."""

    words: str
    samples: list[list[int]]
    marks: list[list[int]]


@dataclass(frozen=True)
class Steps:
    """Steps with what stands above them."""

    opening: str
    steps: list[Step]


class Answer(ctypes.Structure):
    """What a decoder answers."""

    _fields_ = [("number", ctypes.c_uint32), ("row", ctypes.c_uint32), ("filler", ctypes.c_uint64)]


def small_frame(repository: Repository) -> Frame:
    """The frame that the README has a program decode: a mark, a version, the size, an offset for each row, the stream."""
    found = re.search(r"^ +\$ \S+ < (\S+)", repository.text("README.md"), re.M)
    if found is None:
        raise SystemExit("README.md has no program decode a frame")
    data = (repository.top / found[1]).read_bytes()
    width, height = struct.unpack_from("<HH", data, 5)
    offsets = list(struct.unpack_from(f"<{height}I", data, 9))
    return Frame(data[9 + 4 * height :], offsets, width, height)


def decoded(library: str, frame: Frame, samples: list[int]) -> tuple[list[int], list[int]]:
    """The samples and the map that the direct decoder leaves over lent samples. The map is lent full of 255s."""
    function = ctypes.CDLL(library).razvolk_decode_v0_reference_map
    function.restype = Answer
    buffers: list[ctypes.Array[Any]] = [
        (ctypes.c_uint8 * len(frame.stream)).from_buffer_copy(frame.stream),
        (ctypes.c_uint32 * len(frame.offsets))(*frame.offsets),
        (ctypes.c_uint16 * len(samples))(*samples),
        (ctypes.c_uint8 * len(samples))(*[255] * len(samples)),
    ]
    slices = [(ctypes.byref(one), ctypes.c_size_t(len(one))) for one in buffers]
    size = (ctypes.c_size_t(frame.width), ctypes.c_size_t(frame.height))
    answer = function(*slices[0], *slices[1], *size, *slices[2], *slices[3])
    if answer.number != 0:
        raise SystemExit(f"the frame is refused by {answer.number}")
    return list(buffers[2]), list(buffers[3])


def rows_of(cells: list[int], width: int) -> list[list[int]]:
    """A frame's rows."""
    return [cells[at : at + width] for at in range(0, len(cells), width)]


def told(row: int, offset: int, old: list[int], samples: list[int], marks: list[int]) -> str:
    """What the decoder did with a row."""
    if samples == old:
        words = "every sample is skipped, and the bytes stay"
    elif not any(marks):
        words = "its samples rest on the stream alone, and their bytes become 0"
    else:
        words = "some of its samples rest on the stream alone"
    return f"Row {row} is read, from byte {offset} of the stream on: {words}."


def steps(repository: Repository, library: str) -> Steps:
    """The frame row by row: a row that doesn't look up is, decoded alone, what it is in the frame before the exchange."""
    frame = small_frame(repository)
    old = rows_of(list(range(OLD, OLD + frame.width * frame.height)), frame.width)
    alone = [decoded(library, Frame(frame.stream, [at], frame.width, 1), old[row]) for row, at in enumerate(frame.offsets)]
    made = [Step("At entry: the samples as they are lent; every byte is 1.", old, [[1] * frame.width for _ in old])]
    for row, offset in enumerate(frame.offsets):
        samples = [alone[i][0] if i <= row else old[i] for i in range(frame.height)]
        marks = [alone[i][1] if i <= row else [1] * frame.width for i in range(frame.height)]
        made.append(Step(told(row, offset, old[row], *alone[row]), samples, marks))
    samples_left, marks_left = decoded(library, frame, [sample for line in old for sample in line])
    words = (
        "The exchange: the sample right of the first and the one below it change places with their bytes. So the call leaves it."
    )
    made.append(Step(words, rows_of(samples_left, frame.width), rows_of(marks_left, frame.width)))
    hold(made)
    opening = (
        f"The README's frame of {frame.width} by {frame.height}, over samples that hold {OLD} and on. Each picture but the first "
        "shows what the decoder left when this page was made: of the rows, decoded one by one, and then of the whole frame."
    )
    return Steps(opening, made)


def hold(made: list[Step]) -> None:
    """The whole frame must be the rows, exchanged; else a row alone is not what it is in the frame."""
    before, after = made[-2], made[-1]
    for cells, left in ((before.samples, after.samples), (before.marks, after.marks)):
        exchanged = [[cells[0][0], cells[1][0]], [cells[0][1], cells[1][1]]]
        if exchanged != left:
            raise SystemExit("the small frame's rows, decoded one by one and exchanged, are not the frame")


def grown(repository: Repository, library: str) -> Steps:
    """The frame of a stream that breaks off after each word."""
    frame = small_frame(repository)
    old = list(range(OLD, OLD + frame.width * frame.height))
    made: list[Step] = []
    for length in range(0, len(frame.stream) + 1, 4):
        samples, marks = decoded(library, Frame(frame.stream[:length], frame.offsets, frame.width, frame.height), old)
        made.append(Step(f"{length} of {len(frame.stream)} bytes", rows_of(samples, frame.width), rows_of(marks, frame.width)))
    return Steps("", made)
