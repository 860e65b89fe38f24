"""Why a frame is refused, or a file has none."""

from __future__ import annotations

import ctypes
from typing import TYPE_CHECKING, Callable, Optional

from . import _library

if TYPE_CHECKING:
    from ._frame import Frame


class Refusal(ValueError):
    """A frame that is refused. `docs/RULES.md` lists the numbers, and what each leaves behind.

    >>> import razvolk
    >>> try:
    ...     razvolk.decode_v0(b"", [], width=2, height=2)
    ... except razvolk.Refusal as refusal:
    ...     print(refusal.number, refusal.row)
    3 0
    """

    number: int
    """1 to 21, as C and the rules have it."""
    row: int
    """The row at fault of 5 to 8 and 17 to 19, else 0."""
    text: str
    """The refusal in words."""
    missing_words: int
    """How many words of 4 bytes the stream lacked up to the refusal, where it tells: 5 to 8."""
    frame: Optional[Frame]
    """What was decoded before the refusal: of 5 to 8 as far as it came, and of 9, 10, 16 and 20 after decoding. Else None."""

    def __init__(
        self, number: int, row: int = 0, missing_words: int = 0, frame: Optional[Frame] = None
    ) -> None:
        def text(buffer: Optional[ctypes.Array[ctypes.c_char]], length: int) -> int:
            return int(_library.srw.razvolk_srw_refusal_text(number, row, buffer, length))

        self.number, self.row, self.missing_words, self.frame = number, row, missing_words, frame
        self.text = told(text)
        super().__init__(self.text)

    def __reduce__(self) -> tuple[type, tuple[object, ...]]:
        return type(self), (self.number, self.row, self.missing_words, self.frame)


class NoFrame(ValueError):
    """A file that has no frame that can be decoded.

    >>> import razvolk
    >>> razvolk.find(b"GIF89a")
    Traceback (most recent call last):
    ...
    razvolk.NoFrame: not a TIFF file
    """

    number: int
    """1 to 8, as `include/razvolk_srw.h` lists them."""
    text: str
    """The fault in words."""

    def __init__(self, number: int, text: str) -> None:
        self.number, self.text = number, text
        super().__init__(number, text)

    def __str__(self) -> str:
        return self.text


# Shown in tracebacks as what callers import.
Refusal.__module__ = NoFrame.__module__ = "razvolk"


def told(text: Callable[[Optional[ctypes.Array[ctypes.c_char]], int], int]) -> str:
    """The words of a function that tells as many as fit, and how many there are."""
    length = text(None, 0)
    buffer = ctypes.create_string_buffer(length + 1)
    text(buffer, length + 1)
    return buffer.value.decode("utf-8", "replace")


def hold(answer: _library.Answer, frame: Callable[[], Optional[Frame]] = lambda: None) -> None:
    """Raises the refusal that an answer tells, if it isn't done."""
    if answer.number != 0:
        raise Refusal(int(answer.number), int(answer.row), int(answer.filler), frame())
