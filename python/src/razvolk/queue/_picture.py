"""A picture for people: a square of four samples is a pixel, in colour where the file tells its filter, and what is marked is flat.

What is of another picture is red, what is missing is blue, both is violet, whatever the buffer held: a picture of a frame that is
held back never shows another sitting.
"""

from __future__ import annotations

import io
from typing import TYPE_CHECKING, Any, Optional

import numpy as np

from .._frame import MISSING, OLD, Frame

if TYPE_CHECKING:
    from numpy.typing import NDArray

    Light = NDArray[np.float32]

TINTS = {OLD: (200, 40, 40), MISSING: (40, 70, 200), OLD | MISSING: (160, 40, 160)}

# TIFF's numbers of an orientation as Pillow's names of what is done.
_TURNS = {
    2: "FLIP_LEFT_RIGHT",
    3: "ROTATE_180",
    4: "FLIP_TOP_BOTTOM",
    5: "TRANSPOSE",
    6: "ROTATE_270",
    7: "TRANSVERSE",
    8: "ROTATE_90",
}


def png(frame: Frame) -> bytes:
    """The picture of a frame that has samples, and whose marked samples are set, as a PNG file."""
    from PIL import Image

    samples, marks = _even(frame.samples), _even(frame.marks)
    shown = marks[0::2, 0::2] | marks[0::2, 1::2] | marks[1::2, 0::2] | marks[1::2, 1::2]
    pixels = _pixels(samples, shown, frame.colours)
    for mark, tint in TINTS.items():
        pixels[shown == mark] = tint
    picture: Any = Image.fromarray(pixels, "RGB")
    if frame.orientation in _TURNS:
        picture = picture.transpose(getattr(Image.Transpose, _TURNS[frame.orientation]))
    file = io.BytesIO()
    picture.save(file, "PNG", compress_level=1)
    return file.getvalue()


def _even(cells: NDArray[Any]) -> NDArray[Any]:
    """The cells with the last row and column of an odd side twice, so that squares of four cover it."""
    height, width = cells.shape
    if height % 2 == 0 and width % 2 == 0:
        return cells
    return np.pad(cells, ((0, height % 2), (0, width % 2)), "edge")


def _pixels(
    samples: NDArray[np.uint16], marks: NDArray[np.uint8], colours: Optional[str]
) -> NDArray[np.uint8]:
    """Red, green and blue of each square, by a curve that takes its white from what isn't marked."""
    four = [samples[row::2, column::2] for row in (0, 1) for column in (0, 1)]
    known = colours if colours and sorted(colours) == ["B", "G", "G", "R"] else "GGGG"
    pixels = np.empty((*four[0].shape, 3), np.uint8)
    means = {c: _mean([four[i] for i in range(4) if known[i] == c]) for c in set(known)}
    whites = {c: _white(mean, marks) for c, mean in means.items()}
    for channel, colour in enumerate("RGB"):
        colour = colour if colour in means else "G"
        pixels[:, :, channel] = _curve(whites[colour])[means[colour]]
    return pixels


def _mean(cells: list[NDArray[np.uint16]]) -> NDArray[np.uint16]:
    total = cells[0].astype(np.uint32)
    for more in cells[1:]:
        total += more
    mean: NDArray[np.uint16] = (total // len(cells)).astype(np.uint16)
    return mean


def _white(light: NDArray[np.uint16], marks: NDArray[np.uint8]) -> int:
    """The least light that at most one of 200 pixels exceeds, of those that aren't marked."""
    counts = np.bincount(light[marks == 0].ravel(), minlength=1)
    above = counts[::-1].cumsum()[::-1]
    exceeded = np.flatnonzero(above > counts.sum() // 200)
    return max(int(exceeded[-1]), 1) if len(exceeded) > 0 else 1


def _curve(white: int) -> NDArray[np.uint8]:
    """What each light is as a part of a pixel."""
    light = np.minimum(np.arange(1 << 16) / white, 1.0) ** (1 / 2.2)
    curve: NDArray[np.uint8] = (light * 255 + 0.5).astype(np.uint8)
    return curve
