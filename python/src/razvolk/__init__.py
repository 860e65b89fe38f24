"""Samsung raw frames, V0 and V2, as NumPy arrays, with a mark for every sample that the stream doesn't determine.

>>> import razvolk
>>> frame = razvolk.imread("christening.srw")
>>> frame.samples.shape, frame.samples.dtype
((200, 320), dtype('uint16'))
>>> if not frame.clean:
...     print(f"hold back: {frame.old} samples rest on what the array held, {frame.missing} on missing words")
hold back: 7680 samples rest on what the array held, 0 on missing words

The decoders are proved (`librazvolk`); what finds the frame in a file (`librazvolk_srw`) and this package are tested. Calls let
other threads run.
"""

from ._buffers import MAX_SIDE
from ._calls import (
    blank,
    check_packed,
    decode_v0,
    decode_v0_bands,
    decode_v0_clean,
    decode_v2,
    export_v0,
    from_planes,
    most_bands,
    most_v0_bytes,
    step_count,
    to_planes,
    v0_to_v2,
    write_v0,
)
from ._decoder import Decoder
from ._file import Coded, find, imread, imwrite
from ._frame import MISSING, OLD, Blanked, Converted, Exported, Frame, Written
from ._refusal import NoFrame, Refusal

__version__ = "0.1.0"

__all__ = [
    "MAX_SIDE",
    "MISSING",
    "OLD",
    "Blanked",
    "Coded",
    "Converted",
    "Decoder",
    "Exported",
    "Frame",
    "NoFrame",
    "Refusal",
    "Written",
    "blank",
    "check_packed",
    "decode_v0",
    "decode_v0_bands",
    "decode_v0_clean",
    "decode_v2",
    "export_v0",
    "find",
    "from_planes",
    "imread",
    "imwrite",
    "most_bands",
    "most_v0_bytes",
    "step_count",
    "to_planes",
    "v0_to_v2",
    "write_v0",
]
