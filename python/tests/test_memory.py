"""No memory is lost over ten thousand frames, done and refused."""

from __future__ import annotations

import gc
import os
from pathlib import Path

import numpy as np
import razvolk
from frames import SKIPPED

FRAMES = 10_000
# A single array of a frame below that was lost each time would be ten times as much.
MOST_GROWTH = 6 << 20


def resident() -> int:
    gc.collect()
    return int(Path("/proc/self/statm").read_text().split()[1]) * os.sysconf("SC_PAGE_SIZE")


def test_no_growth(tmp_path: Path) -> None:
    rng = np.random.default_rng(7)
    samples = rng.integers(0, 16_384, (48, 64)).astype(np.uint16)
    stream, offsets = razvolk.write_v0(samples)
    v2 = razvolk.v0_to_v2(stream, offsets, 64, 48).stream
    decoder, lent = razvolk.Decoder(), np.zeros(64 * 48, np.uint16)
    path = Path(os.environ["RAZVOLK_FRAMES"], "small.srw")

    def refused() -> None:
        try:
            razvolk.decode_v2(v2[:2_000], 64, 48)
        except razvolk.Refusal as refusal:
            assert refusal.frame is not None
        try:
            razvolk.find(b"II*\0")
        except razvolk.NoFrame:
            pass
        try:
            razvolk.decode_v0(SKIPPED, [0, 4], 2, 2, b"read-only")
        except ValueError:
            pass

    def round_(i: int) -> None:
        frame = decoder.decode_v0(stream, offsets, 64, 48, lent)
        assert frame.clean and frame.runs.size == 0
        if i % 10 == 0:
            frame = razvolk.decode_v0(stream, offsets.tolist(), 64, 48)
            frame.marks[3, 5:9] = 1
            razvolk.blank(frame.samples, frame.marks)
            razvolk.export_v0(frame.samples, frame.marks)
            razvolk.decode_v0_bands(stream, offsets, 64, 48, 3, 32)
            razvolk.check_packed(stream, offsets, samples)
            razvolk.from_planes(razvolk.to_planes(samples), 64, 48)
            razvolk.v0_to_v2(stream, offsets, 64, 48)
            decoder.decode_v2(v2, 64, 48, bytearray(2 * 64 * 48))
            razvolk.imread(path)
            refused()

    for i in range(1_000):
        round_(i)
    before = resident()
    for i in range(FRAMES):
        round_(i)
    assert resident() - before < MOST_GROWTH
