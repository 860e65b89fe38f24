"""A camera's file: the frame is found by `librazvolk_srw`, which is tested and not proved."""

from __future__ import annotations

import contextlib
import ctypes
import operator
import os
import threading
from dataclasses import dataclass, replace
from typing import TYPE_CHECKING, Optional, Union

import numpy as np

from . import _calls, _library
from ._buffers import MAX_SIDE, U8, U32, address, flat
from ._frame import Frame
from ._refusal import NoFrame, Refusal, told

if TYPE_CHECKING:
    from ._buffers import Bytes, LentBytes, LentSamples, Numbers


@dataclass(frozen=True, eq=False, repr=False)
class Coded:
    """A frame as a file has it, not decoded yet. `find` tells it."""

    version: int
    """0 of V0, 2 of V2."""
    width: int
    """The columns, margins included. A few bytes of a file can claim any: look at the size before you ask for memory."""
    height: int
    """The rows, margins included."""
    stream: Bytes
    """The stream, as far as the file has it: a view of what was lent."""
    offsets: Numbers
    """Where each row starts in the stream of V0; empty of V2."""
    missing_bytes: int
    """How many bytes of the stream the file says to have and has not: an upload that broke off."""
    bits: Optional[int]
    """The bits of a sample, if the file tells them."""
    model: Optional[str]
    """The camera's model, if the file tells it."""
    colours: Optional[str]
    """The colour filter, if the file tells one of 2 by 2: the letters of rows 0 and 1, such as RGGB."""
    orientation: Optional[int]
    """How the picture is to be turned, if the file tells it: 1 to 8, as TIFF counts."""

    def decode(self, out: Optional[LentSamples] = None, marks: Optional[LentBytes] = None) -> Frame:
        """Decodes the frame, as `decode_v0` or `decode_v2` does."""
        try:
            if self.version == 0:
                return self._told(
                    _calls.decode_v0(self.stream, self.offsets, self.width, self.height, out, marks)
                )
            return self._told(_calls.decode_v2(self.stream, self.width, self.height, out, marks))
        except Refusal as refusal:
            refusal.frame = refusal.frame and self._told(refusal.frame)
            raise

    def _told(self, frame: Frame) -> Frame:
        """The frame with what the file tells of it."""
        return replace(
            frame,
            missing_bytes=self.missing_bytes,
            bits=self.bits,
            model=self.model,
            colours=self.colours,
            orientation=self.orientation,
        )

    def __repr__(self) -> str:
        size = f"V{self.version}, {self.width} by {self.height}"
        return f"<razvolk.Coded: {size}, {self.stream.size} bytes of stream, {self.missing_bytes} missing>"


def find(data: LentBytes) -> Coded:
    """Finds the frame in the bytes of a camera's file, any buffer. Nothing is copied but the offsets.

    >>> import pathlib, razvolk
    >>> coded = razvolk.find(pathlib.Path("christening.srw").read_bytes())
    >>> coded
    <razvolk.Coded: V0, 320 by 200, 13524 bytes of stream, 0 missing>
    >>> coded.decode().version
    0

    Raises `NoFrame` if there is none. A stream that breaks off is no fault: `Coded.missing_bytes` tells it.
    """
    file = flat(data, "data", U8)
    found, offsets = _library.Found(), np.empty(MAX_SIDE, U32)
    lent = address(file), file.size
    answer = _library.srw.razvolk_srw_find(
        *lent, ctypes.byref(found), address(offsets), offsets.size
    )
    if answer.number != 0:

        def text(buffer: Optional[ctypes.Array[ctypes.c_char]], length: int) -> int:
            return int(_library.srw.razvolk_srw_text(*lent, buffer, length))

        raise NoFrame(int(answer.number), told(text))
    model = _part(file, found.model, found.model_len).tobytes().decode("ascii")
    colours = "".join("RGB"[colour] for colour in found.colours if colour < 3)
    return Coded(
        version=found.version,
        width=found.width,
        height=found.height,
        stream=_part(file, found.stream, found.stream_len),
        offsets=offsets[: found.offsets].copy(),
        missing_bytes=found.missing,
        bits=found.bits or None,
        model=model or None,
        colours=colours or None,
        orientation=found.orientation or None,
    )


def _part(file: Bytes, at: Optional[int], length: int) -> Bytes:
    """A part of a file by its address; none is empty."""
    start = 0 if at is None else at - address(file)
    return file[start : start + length]


def read(path: Union[str, os.PathLike[str]]) -> Coded:
    """Finds the frame of a file, which is read whole: a file that is mapped and cut meanwhile would end the program."""
    with open(path, "rb") as file:
        return find(file.read())


def imread(path: Union[str, os.PathLike[str]], out: Optional[LentSamples] = None) -> Frame:
    """Decodes the frame of a camera's file, into `out` if that is lent, as `decode_v0` has it.

    >>> import razvolk
    >>> frame = razvolk.imread("upload.srw")
    >>> frame
    <razvolk.Frame: V0, 320 by 200, 0 samples old, 32000 missing>
    >>> frame.clean, frame.missing_bytes
    (False, 8280)

    Raises `NoFrame` of a file without a frame, `Refusal` as `decode_v0` and `decode_v2` do, and `OSError` of a file that can't
    be read.
    """
    return read(path).decode(out)


def imwrite(
    path: Union[str, os.PathLike[str]],
    samples: LentSamples,
    *,
    bits: Optional[int] = None,
    model: Optional[str] = None,
    colours: Optional[str] = None,
    orientation: Optional[int] = None,
) -> None:
    """Writes samples, as `write_v0` takes them, to a file that `imread` reads again, and other readers too.

    What the file is to tell besides, as a `Frame` has it, is left out if it isn't given; the bits are 14 then. A file of that name
    is replaced, once the new one is whole.

    >>> import numpy, razvolk
    >>> razvolk.imwrite("stored.srw", numpy.full((4, 6), 1_000, numpy.uint16), colours="RGGB")
    >>> frame = razvolk.imread("stored.srw")
    >>> frame.clean, frame.colours, int(frame.samples.sum())
    (True, 'RGGB', 24000)

    Raises `Refusal` 1 and 9, and `OSError` if the file can't be written: a file of that name is as it was then.
    """
    _told_within("bits", bits, 16)
    _told_within("orientation", orientation, 8)
    stream, offsets = _calls.write_v0(samples)
    height, width = np.shape(samples)  # type: ignore[arg-type]
    coded = Coded(0, width, height, stream, offsets, 0, bits, model, colours, orientation)
    _put(path, contained(coded, 0, stream, offsets))


def contained(
    coded: Coded, version: int, stream: Bytes, offsets: Optional[Numbers] = None
) -> bytes:
    """A camera's file of a stream, which tells what is told of the frame that it is made of."""
    rows = np.empty(0, U32) if offsets is None else offsets
    name = ctypes.create_string_buffer((coded.model or "").encode("ascii", "replace"))
    found = _library.Found(version, coded.bits or 0, coded.width, coded.height)
    found.stream, found.stream_len, found.offsets = address(stream), stream.size, rows.size
    found.model, found.model_len = ctypes.addressof(name), len(name) - 1
    found.colours = (ctypes.c_uint8 * 4)(*_numbered(coded.colours))
    found.orientation = coded.orientation or 0
    file = np.empty(stream.nbytes + rows.nbytes + len(name) + 1_024, U8)
    length = _library.srw.razvolk_srw_write(
        ctypes.byref(found), address(rows), address(file), file.size
    )
    if length == 0:
        raise ValueError(
            f"model {coded.model!r} is no plain text, or the file would have 2^32 bytes or more"
        )
    return file[:length].tobytes()


def _told_within(name: str, number: Optional[int], most: int) -> None:
    if number is not None and not 1 <= operator.index(number) <= most:
        raise ValueError(f"{name} is {number}, no number from 1 to {most}")


def _numbered(colours: Optional[str]) -> list[int]:
    """The colours of a filter by their numbers in a file."""
    if colours is None:
        return [255] * 4
    if len(colours) != 4 or set(colours) - set("RGB"):
        raise ValueError(
            f"colours must be four letters of R, G and B, such as RGGB, not {colours!r}"
        )
    return ["RGB".index(colour) for colour in colours]


def _put(path: Union[str, os.PathLike[str]], data: bytes) -> None:
    """Writes a file beside the one of that name, and then puts it in its place. What is no file, such as a pipe, is written to."""
    whole = os.path.realpath(path)
    if os.path.exists(whole) and not os.path.isfile(whole):
        with open(whole, "wb") as device:
            device.write(data)
        return
    part = f"{whole}.{os.getpid()}-{threading.get_ident()}.part"
    try:
        with open(part, "xb") as file:
            file.write(data)
        os.replace(part, whole)
    except BaseException:
        with contextlib.suppress(FileNotFoundError):
            os.unlink(part)
        raise
