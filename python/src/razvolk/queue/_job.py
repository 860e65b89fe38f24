"""A job: which frame, and what is wanted of it. It is tested by who submits it, and again by the worker that gets it."""

from __future__ import annotations

import hashlib
import json
import re
from dataclasses import asdict, dataclass
from typing import Any, Optional

OUTPUTS = {"picture": ".png", "proof": ".pgm", "v0": ".v0.srw", "v2": ".v2.srw"}
"""What a job may want, and how the file of it ends."""

MOST_BYTES = 10_000
"""The longest message that is taken for a job."""

_ID = re.compile(r"[A-Za-z0-9_-]{1,80}")
_MOST_NAME = 1_000
_MOST_AGAIN = 1_000


class NotAJob(ValueError):
    """A message that is no job, and why. `id` is its id, if it has one that can name a file."""

    def __init__(self, why: str, id: Optional[str] = None) -> None:
        self.id = id
        super().__init__(why)


@dataclass(frozen=True)
class Job:
    """A job that may be sent.

    >>> Job("sitting-7", "studio/sitting.srw", ("proof",)).record
    'sitting-7.json'
    >>> Job("../sitting", "sitting.srw")
    Traceback (most recent call last):
    ...
    razvolk.queue.NotAJob: id '../sitting' is not 1 to 80 of the letters A to Z and a to z, digits, _ and -
    """

    id: str
    """Names the job, its record and its outputs."""
    file: str
    """The camera's file, below the source folder."""
    want: tuple[str, ...] = ()
    """What is wanted beside the record, of `OUTPUTS`."""
    fill: Optional[int] = None
    """What the proof's marked samples are set to; None takes the nearest of their colour to the left that isn't marked."""
    again: int = 0
    """How often an operator has sent the job again after it was set aside."""

    def __post_init__(self) -> None:
        if not is_id(self.id):
            raise NotAJob(
                f"id {self.id!r} is not 1 to 80 of the letters A to Z and a to z, digits, _ and -"
            )
        fault = _file_fault(self.file) or _want_fault(self.want)
        if self.fill is not None and not _is_number(self.fill, 65_535):
            fault = fault or f"fill {self.fill!r} is no number from 0 to 65,535"
        if not _is_number(self.again, _MOST_AGAIN):
            fault = fault or f"again {self.again!r} is no number from 0 to {_MOST_AGAIN}"
        if fault:
            raise NotAJob(fault, self.id)

    @property
    def record(self) -> str:
        """The name of the record. A job that is sent again has a new one: a record is never replaced."""
        return f"{self.id}.json" if self.again == 0 else f"{self.id}.again{self.again}.json"

    def message(self) -> bytes:
        """The job as it is sent: equal jobs are equal bytes."""
        return json.dumps(asdict(self), sort_keys=True).encode()


NotAJob.__module__ = Job.__module__ = "razvolk.queue"


def is_id(value: object) -> bool:
    """Whether a value can name a job: such a name is safe in a file's name."""
    return isinstance(value, str) and _ID.fullmatch(value) is not None


def _is_number(value: object, most: int) -> bool:
    return isinstance(value, int) and not isinstance(value, bool) and 0 <= value <= most


def _file_fault(file: object) -> str:
    """Why a value doesn't name a file below a folder, or nothing."""
    if not isinstance(file, str) or not 0 < len(file) <= _MOST_NAME:
        return f"file is no text of 1 to {_MOST_NAME:,} characters"
    if any(part in ("", ".", "..") for part in file.split("/")):
        return f"file {file!r} is not a path below the source folder"
    try:
        plain = "\0" not in file and bool(file.encode())
    except UnicodeEncodeError:
        plain = False
    return "" if plain else f"file {file!r} is no file's name"


def _want_fault(want: object) -> str:
    if not isinstance(want, tuple) or not all(isinstance(name, str) for name in want):
        return "want is no list of names"
    odd = [name for name in want if name not in OUTPUTS]
    if odd or len(set(want)) < len(want):
        return (
            f"want must name each output once, of {', '.join(OUTPUTS)}, not {', '.join(want)[:80]}"
        )
    return ""


def parse(message: bytes) -> Job:
    """The job of a message; raises `NotAJob` for every other message."""
    if len(message) > MOST_BYTES:
        raise NotAJob(f"the message has more than {MOST_BYTES:,} bytes")
    try:
        fields: Any = json.loads(message)
    except (ValueError, RecursionError):
        raise NotAJob("the message is no JSON") from None
    if not isinstance(fields, dict):
        raise NotAJob("the message is no JSON object")
    id = fields["id"] if is_id(fields.get("id")) else None
    odd = set(fields) - set(Job.__dataclass_fields__)
    if odd or not {"id", "file"} <= set(fields):
        raise NotAJob("a job has id, file, and maybe want, fill, again, and nothing else", id)
    if isinstance(fields.get("want"), list):
        fields["want"] = tuple(fields["want"])
    return Job(**fields)


def id_for(file: str, want: tuple[str, ...], fill: Optional[int]) -> str:
    """An id made of what is asked for, so that the same request sent twice is one job.

    >>> id_for("studio/sitting.srw", ("proof",), None)
    'sitting-14f40418668f8cd1'
    """
    name = re.sub(r"[^A-Za-z0-9_-]+", "_", file.rsplit("/", 1)[-1].rsplit(".", 1)[0])[:60]
    asked = json.dumps([file, sorted(want), fill]).encode()
    return f"{name}-{hashlib.sha256(asked).hexdigest()[:16]}"
