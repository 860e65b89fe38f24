"""A caller that takes ends, on a broker that only notes what is done."""

from __future__ import annotations

from collections.abc import Iterator
from types import SimpleNamespace
from typing import Any

import pytest
from razvolk.queue import Caller


class Noting:
    """A broker and its channel. It has three ends, and then none."""

    def __init__(self) -> None:
        self.done: list[Any] = []

    def channel(self) -> Noting:
        self.done.append("open")
        return self

    def close(self) -> None:
        self.done.append("close")

    def basic_qos(self, prefetch_count: int) -> None:
        assert prefetch_count > 0

    def consume(self, queue: str, inactivity_timeout: float) -> Iterator[tuple[Any, Any, Any]]:
        for tag in (1, 2, 3):
            yield SimpleNamespace(delivery_tag=tag), None, b"end %d" % tag
        while True:
            yield None, None, None

    def basic_ack(self, tag: int) -> None:
        self.done.append(tag)


def test_who_waits_no_longer_leaves_no_consumer() -> None:
    broker = Noting()
    ends: list[bytes] = []
    Caller(broker).ends(ends.append, wait=0)  # type: ignore[arg-type]
    assert (broker.done, ends) == (["close"], [])
    Caller(broker).ends(ends.append, wait=0.01)  # type: ignore[arg-type]
    assert ends == [b"end 1", b"end 2", b"end 3"]
    assert broker.done == ["close", "open", 1, 2, 3, "close"]


def test_who_has_enough_leaves_no_consumer() -> None:
    broker = Noting()

    def told(end: bytes) -> None:
        if end == b"end 2":
            raise StopIteration

    Caller(broker).ends(told)  # type: ignore[arg-type]
    assert broker.done == ["open", 1, 2, "close"]


def test_an_end_that_isnt_taken_stays() -> None:
    broker = Noting()

    def told(_: bytes) -> None:
        raise KeyError

    with pytest.raises(KeyError):
        Caller(broker).ends(told)  # type: ignore[arg-type]
    assert broker.done == ["open", "close"]
