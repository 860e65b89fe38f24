"""A frame that is decoded, and what its samples rest on."""

from __future__ import annotations

from dataclasses import dataclass
from typing import TYPE_CHECKING, NamedTuple, Optional

import numpy as np

if TYPE_CHECKING:
    from ._buffers import Bytes, Numbers, Samples

OLD = 1
"""The part of a mark that tells of old values: the sample is what the array held before, or rests on it."""

MISSING = 2
"""The part of a mark that tells of missing words: the sample, or one that it rests on, was read past the stream's end."""


@dataclass(frozen=True, eq=False, repr=False)
class Frame:
    """A decoded frame. Nothing in it is cleared or painted over: look at the marks before you show or store it.

    >>> import razvolk
    >>> stream = bytes.fromhex("00000080 1820a07f 00007000")
    >>> frame = razvolk.decode_v0(stream, [0, 4], width=2, height=2)
    >>> frame
    <razvolk.Frame: V0, 2 by 2, 2 samples old, 0 missing>
    >>> frame.samples
    array([[  0, 131],
           [  0, 126]], dtype=uint16)
    >>> frame.marks & razvolk.OLD
    array([[1, 0],
           [1, 0]], dtype=uint8)
    >>> frame.clean, frame.old, frame.missing
    (False, 2, 0)
    >>> frame.runs.tolist()
    [[0, 0, 1], [1, 0, 1]]
    """

    samples: Samples
    """The samples, height by width: the array that was lent, or a view of it."""
    marks: Bytes
    """What each sample rests on: 0 on bytes of the stream only, else the sum of OLD and MISSING as they hold."""
    version: int
    """0 of V0, 2 of V2."""
    missing_words: int = 0
    """How many words of 4 bytes were read past the stream's end, as ones."""
    missing_bytes: int = 0
    """How many bytes of the stream the file says to have and has not: an upload that broke off."""
    bits: Optional[int] = None
    """The bits of a sample, where a file tells them."""
    model: Optional[str] = None
    """The camera's model, where a file tells it."""
    colours: Optional[str] = None
    """The colour filter, where a file tells one of 2 by 2: the letters of rows 0 and 1, such as RGGB."""
    orientation: Optional[int] = None
    """How the picture is to be turned, where a file tells it: 1 to 8, as TIFF counts."""

    @property
    def height(self) -> int:
        """The rows."""
        return self.samples.shape[0]

    @property
    def width(self) -> int:
        """The columns."""
        return self.samples.shape[1]

    @property
    def clean(self) -> bool:
        """Whether every sample rests on bytes of the stream only, and the file has all of it."""
        return self.missing_bytes == 0 and not self.marks.any()

    @property
    def old(self) -> int:
        """How many samples rest on what the array held before."""
        return int(np.count_nonzero(self.marks & OLD))

    @property
    def missing(self) -> int:
        """How many samples rest on words that the stream lacks."""
        return int(np.count_nonzero(self.marks & MISSING))

    @property
    def runs(self) -> Numbers:
        """The runs of marked samples within a row, in reading order: row, first column and length of each."""
        return runs(self.marks)

    def __repr__(self) -> str:
        size = f"V{self.version}, {self.width} by {self.height}"
        return f"<razvolk.Frame: {size}, {self.old} samples old, {self.missing} missing>"


def runs(marks: Bytes) -> Numbers:
    """The runs of marks that aren't 0, each as long as can be within its row."""
    # Most rows have none.
    rows = np.flatnonzero(marks.any(axis=1))
    marked = np.zeros((len(rows), marks.shape[1] + 2), np.int8)
    marked[:, 1:-1] = marks[rows] != 0
    steps = np.diff(marked, axis=1)
    at, first = np.nonzero(steps == 1)
    end = np.nonzero(steps == -1)[1]
    told: Numbers = np.stack([rows[at], first, end - first], axis=1).astype(np.uint32)
    return told


class Written(NamedTuple):
    """A frame as V0."""

    stream: Bytes
    """The stream."""
    offsets: Numbers
    """Where each row starts in it."""


class Blanked(NamedTuple):
    """What blanking has done."""

    marked: int
    """How many samples were marked, and set."""
    runs: Numbers
    """Their runs: row, first column and length of each."""


class Exported(NamedTuple):
    """What the archive export has made."""

    marked: int
    """How many samples were marked, and set to 0."""
    runs: Numbers
    """Their runs: row, first column and length of each."""
    stream: Bytes
    """The stream, V0."""
    offsets: Numbers
    """Where each row starts in it."""


class Converted(NamedTuple):
    """A V0 frame as V2."""

    stream: Bytes
    """The stream, V2."""
    frame: Frame
    """The frame that was decoded, all of it clean."""
