"""A decoder for a worker: the marks' memory is kept from frame to frame."""

from __future__ import annotations

import os
import threading
from typing import TYPE_CHECKING, Optional, SupportsIndex, Union

import numpy as np

from . import _calls, _file
from ._buffers import U8, side, within
from ._frame import Frame

if TYPE_CHECKING:
    from ._buffers import Bytes, LentBytes, LentSamples, NumbersLike


class Decoder:
    """Decodes frame after frame and keeps the memory of the marks, so that a worker who drops a frame allocates none for the next.

    Lend each call the worker's own array as `out`, too. Marks that are still in use stay as they are: a decoder takes new memory
    then. Threads may share a decoder; one for each worker saves more.

    >>> import numpy, razvolk
    >>> decoder = razvolk.Decoder()
    >>> buffer = numpy.zeros(5_546 * 3_714, numpy.uint16)
    >>> stream = bytes.fromhex("00000080 1820a07f 00007000")
    >>> frame = decoder.decode_v0(stream, [0, 4], width=2, height=2, out=buffer)
    >>> frame.old
    2
    """

    def __init__(self) -> None:
        self._map = bytearray()
        self._taking = threading.Lock()

    def decode_v0(
        self,
        stream: LentBytes,
        offsets: NumbersLike,
        width: SupportsIndex,
        height: SupportsIndex,
        out: Optional[LentSamples] = None,
    ) -> Frame:
        """Decodes a V0 frame: see `decode_v0`."""
        return _calls.decode_v0(stream, offsets, width, height, out, self._marks(width, height))

    def decode_v0_clean(
        self,
        stream: LentBytes,
        offsets: NumbersLike,
        width: SupportsIndex,
        height: SupportsIndex,
        out: Optional[LentSamples] = None,
    ) -> Frame:
        """Decodes a V0 frame if it is clean: see `decode_v0_clean`."""
        return _calls.decode_v0_clean(
            stream, offsets, width, height, out, self._marks(width, height)
        )

    def decode_v2(
        self,
        stream: LentBytes,
        width: SupportsIndex,
        height: SupportsIndex,
        out: Optional[LentSamples] = None,
    ) -> Frame:
        """Decodes a V2 frame: see `decode_v2`."""
        return _calls.decode_v2(stream, width, height, out, self._marks(width, height))

    def imread(
        self, path: Union[str, os.PathLike[str]], out: Optional[LentSamples] = None
    ) -> Frame:
        """Decodes the frame of a camera's file: see `imread`."""
        return self.decode(_file.read(path), out)

    def decode(self, coded: _file.Coded, out: Optional[LentSamples] = None) -> Frame:
        """Decodes a frame that `find` found: see `Coded.decode`."""
        return coded.decode(out, self._marks(coded.width, coded.height))

    def _marks(self, width: SupportsIndex, height: SupportsIndex) -> Bytes:
        """An array for a frame's marks over the memory that is kept, if that is long enough and no other array lies over it."""
        columns, lines = side(width, "width"), side(height, "height")
        count = columns * lines if within(columns, lines) else 0
        if count == 0:
            return np.empty((lines, columns) if within(columns, lines) else (0, 0), U8)
        with self._taking:
            if self._in_use() or len(self._map) < count:
                self._map = bytearray(count)
            return np.frombuffer(self._map, U8, count).reshape(lines, columns)

    def _in_use(self) -> bool:
        """Whether an array lies over the memory: a bytearray can't be resized then."""
        try:
            self._map.append(0)
            self._map.pop()
        except BufferError:
            return True
        return False
