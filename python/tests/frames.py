"""Frames for the tests: made, damaged and random, and files of them."""

from __future__ import annotations

import struct
from typing import TYPE_CHECKING, NamedTuple, Optional

import numpy as np
import razvolk

if TYPE_CHECKING:
    from numpy.typing import NDArray

# A frame of 2 by 2 whose first row is skipped.
SKIPPED = bytes.fromhex("00000080 1820a07f 00007000")


class Call(NamedTuple):
    """What a decoder is asked for, but for the array; no offsets are V2's."""

    stream: bytes
    offsets: Optional[list[int]]
    width: int
    height: int

    def file(self, missing: int = 0) -> bytes:
        """A camera's file of the frame, from which so many bytes of the stream are lost."""
        entries = [
            (256, 4, 1, self.width),
            (257, 4, 1, self.height),
            (258, 3, 1, 14),
            (259, 3, 1, 32773 if self.offsets is None else 32770),
        ]
        table = (
            b"" if self.offsets is None else struct.pack(f"<{len(self.offsets)}I", *self.offsets)
        )
        at = 8 + 2 + 12 * 7 + 4
        entries += [
            (273, 4, 1, at + len(table)),
            (279, 4, 1, len(self.stream) + missing),
            (40976, 4, 1, at),
        ]
        body = b"".join(struct.pack("<HHII", *entry) for entry in entries)
        return b"II*\0\x08\0\0\0" + struct.pack("<H", 7) + body + bytes(4) + table + self.stream


def picture(rng: np.random.Generator, width: int, height: int) -> NDArray[np.uint16]:
    """Samples like a picture's: a slope with noise, or plain noise."""
    noise = rng.integers(0, rng.choice([2, 60, 16_384]), (height, width))
    slope = np.add.outer(np.arange(height) * 3, np.arange(width) * 5)
    made: NDArray[np.uint16] = np.minimum(noise + slope, 16_383).astype(np.uint16)
    return made


def v0_call(rng: np.random.Generator, width: int, height: int) -> Call:
    """A V0 frame, whole or damaged."""
    stream, offsets = razvolk.write_v0(picture(rng, width, height))
    return _damaged(rng, Call(stream.tobytes(), offsets.tolist(), width, height))


def v2_call(rng: np.random.Generator, width: int, height: int) -> Call:
    """A V2 frame, whole or damaged; the width is a multiple of 16 where it is whole."""
    wide = width + -width % 16
    written = razvolk.write_v0(picture(rng, wide, height))
    stream = razvolk.v0_to_v2(*written, wide, height).stream
    return _damaged(rng, Call(stream.tobytes(), None, width, height))


def _damaged(rng: np.random.Generator, call: Call) -> Call:
    kind = int(rng.integers(5))
    stream = bytearray(call.stream)
    offsets = call.offsets
    if kind == 1:
        del stream[int(rng.integers(len(stream) + 1)) :]
    if kind == 2:
        stream = bytearray(rng.bytes(len(stream)))
    if kind >= 3 and stream:
        # Bytes from 16 on: V2's own header stays.
        for _ in range(int(rng.integers(1, 6))):
            stream[int(rng.integers(16 if len(stream) > 16 else 0, len(stream)))] = int(
                rng.integers(256)
            )
    if kind == 4 and offsets:
        offsets = [
            int(rng.integers(0, len(stream) + 9)) if rng.integers(4) == 0 else at for at in offsets
        ]
    return call._replace(stream=bytes(stream), offsets=offsets)


def any_call(rng: np.random.Generator, most: int = 48) -> Call:
    """A call of either decoder."""
    if rng.integers(3) == 0:
        return v2_call(rng, int(rng.integers(32, 32 + most)), int(rng.integers(1, 12)))
    return v0_call(rng, int(rng.integers(0, most)), int(rng.integers(0, 12)))
