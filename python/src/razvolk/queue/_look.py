"""A look at a frame: its verdict, and the files that a job wants of it. The words are those of the command line tool."""

from __future__ import annotations

import hashlib
import json
from collections.abc import Iterator
from dataclasses import dataclass, replace
from typing import Any, Optional

import numpy as np

from .. import _calls, _file
from .._buffers import U16, within
from .._decoder import Decoder
from .._file import Coded
from .._frame import Frame
from .._refusal import NoFrame, Refusal
from ._job import OUTPUTS, Job
from ._picture import png
from ._store import Part, Unreadable

MOST_SAMPLES = 1 << 26
"""The most samples of a frame, as the command line tool has it: more than twice as many as any camera's."""

STATUSES = ("clean", "hold_back", "incomplete", "refused", "unreadable", "aside")
"""How a job can end."""

Fields = dict[str, Any]


@dataclass(frozen=True)
class Output:
    """A file that a job wants."""

    want: str
    name: str
    parts: list[Part]

    def told(self) -> Fields:
        """What the record tells of it."""
        digest = hashlib.sha256()
        for part in self.parts:
            digest.update(part)
        size = sum(memoryview(part).nbytes for part in self.parts)
        return {"name": self.name, "bytes": size, "sha256": digest.hexdigest()}


class Look:
    """What a worker has for its life: one buffer of samples, which nobody clears, and the memory of the marks.

    What it tells of a frame, and every file that it makes, depends on the job and the source file alone: the marks and the
    samples that aren't marked do (which is proved), and marked samples are set before a file is made of them.
    """

    def __init__(self) -> None:
        # Memory is taken by the rows that are written, not by this.
        self._buffer = np.zeros(MOST_SAMPLES, U16)
        self._decoder = Decoder()

    def outputs(self, job: Job, data: bytes, record: Fields) -> Iterator[Output]:
        """Decodes the frame of a file, tells of it in the record, and makes the files that the job wants, one at a time."""
        try:
            coded = _file.find(data)
            _hold_size(coded)
        except (NoFrame, Unreadable) as fault:
            record.update(unreadable(str(fault)))
            return
        refusal: Optional[Refusal] = None
        frame: Optional[Frame] = None
        try:
            frame = self._decoder.decode(coded, self._buffer)
        except Refusal as caught:
            refusal, frame = caught, caught.frame
        record.update(_told(coded, frame, refusal))
        record.update(outputs={}, left_out={})
        for want in sorted(job.want, key=list(OUTPUTS).index):
            try:
                parts = self._made(want, job.fill, coded, frame, refusal)
            except ValueError as why:
                record["left_out"][want] = str(why)
                continue
            output = Output(want, job.id + OUTPUTS[want], parts)
            record["outputs"][want] = output.told()
            yield output

    def _made(
        self,
        want: str,
        fill: Optional[int],
        coded: Coded,
        frame: Optional[Frame],
        refusal: Optional[Refusal],
    ) -> list[Part]:
        """A file of the frame. A picture shows what there is of a refused frame; stored it would pass for a whole one."""
        if frame is None or (refusal is not None and want in ("v0", "v2")):
            raise _LeftOut("the frame is refused")
        if want == "v0":
            return [_v0(coded, frame)]
        if want == "v2":
            return [self._v2(coded)]
        if frame.samples.size == 0:
            raise _LeftOut("the frame has no samples")
        _calls.blank(frame.samples, frame.marks, fill)
        return _pgm(frame) if want == "proof" else [png(frame)]

    def _v2(self, coded: Coded) -> bytes:
        """The frame as V2, which only a clean V0 frame can be: the buffer holds the same samples then."""
        if coded.version != 0:
            raise _LeftOut("the frame is V2 already")
        stream = _calls.v0_to_v2(
            coded.stream, coded.offsets, coded.width, coded.height, self._buffer
        ).stream
        return _file.contained(replace(coded, bits=None), 2, stream)


class _LeftOut(ValueError):
    """Why a file isn't made, beside a `Refusal`."""


def _hold_size(coded: Coded) -> None:
    """Refuses a frame that is too large to look at. A side above the limit needs no samples: the decoder refuses it."""
    width, height = coded.width, coded.height
    if within(width, height) and width * height > MOST_SAMPLES:
        text = f"a frame of {width} by {height} is too large to look at"
        raise Unreadable(f"{text}: the limit is {MOST_SAMPLES} samples")


def unreadable(why: str) -> Fields:
    """What is told of a file that can't be read, or has no frame."""
    return {"status": "unreadable", "clean": False, "error": why}


def _told(coded: Coded, frame: Optional[Frame], refusal: Optional[Refusal]) -> Fields:
    """What the command line tool's JSON tells of a frame, by the same names."""
    told: Fields = {
        "version": f"V{coded.version}",
        "width": coded.width,
        "height": coded.height,
        "bits": coded.bits,
        "stream_bytes": coded.stream.size,
        "missing_bytes": coded.missing_bytes,
        "missing_words": frame.missing_words if frame else 0,
        "answer": refusal.number if refusal else 0,
        "row": refusal.row if refusal else 0,
        "text": refusal.text if refusal else "done",
    }
    if frame is not None:
        told.update(samples=frame.samples.size, old=frame.old, filler=frame.missing)
    told["status"] = _status(coded, told)
    told["clean"] = told["status"] == "clean"
    return told


def _status(coded: Coded, told: Fields) -> str:
    if told["answer"] != 0:
        return "refused"
    if told["old"] > 0:
        return "hold_back"
    return "incomplete" if told["filler"] > 0 or coded.missing_bytes > 0 else "clean"


def _v0(coded: Coded, frame: Frame) -> bytes:
    """The archive export: what is marked is 0."""
    made = _calls.export_v0(frame.samples, frame.marks)
    return _file.contained(replace(coded, bits=None), 0, made.stream, made.offsets)


def _pgm(frame: Frame) -> list[Part]:
    """The samples as a PGM file of 16 bits, highest byte first. The largest that it tells of is the bits', as the tool has it."""
    bits = frame.bits if frame.bits is not None and 9 <= frame.bits <= 16 else 14
    most = (1 << bits) - 1 if int(frame.samples.max()) >> bits == 0 else 65_535
    head = f"P5\n{frame.width} {frame.height}\n{most}\n".encode()
    return [head, frame.samples.astype(">u2").data.cast("B")]


def text(record: Fields) -> bytes:
    """A record as it is written and sent: equal records are equal bytes."""
    return (json.dumps(record, sort_keys=True) + "\n").encode()


def begun(job: Job) -> Fields:
    """What every record tells of its job."""
    record: Fields = {"id": job.id, "file": job.file}
    return record if job.again == 0 else {**record, "again": job.again}
