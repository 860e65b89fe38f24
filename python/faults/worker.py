"""A worker that dies where it is told to, and that can be made wrong in ways that the harness must find (`CONTROLS`).

FOLDER/hooks.json tells for a job's id what happens: "kill" at its begin each time; "sleep SECONDS"; "once STEP", killed when it
first comes to a step. FOLDER/begun has a line for each begin.
"""

from __future__ import annotations

import json
import os
import signal
import sys
import time
from collections.abc import Iterable, Iterator
from pathlib import Path
from typing import Any, Callable

from razvolk import _calls
from razvolk.queue import _broker, _command, _look, _store, _worker
from razvolk.queue._job import Job

FOLDER = Path(os.environ.get("RAZVOLK_FAULTS", "."))
STEPS = ("begin", "half", "staged", "record staged", "recorded", "told", "acked")

_hooks: dict[str, str] = {}
_in_hand = ""


def die() -> None:
    os.kill(os.getpid(), signal.SIGKILL)


def step(name: str) -> None:
    """Dies here if the job in hand is to die at this step for the first time."""
    if _hooks.get(_in_hand) == f"once {name}":
        try:
            (FOLDER / "once" / _in_hand).touch(exist_ok=False)
        except FileExistsError:
            return
        die()


def begin(job: Job) -> None:
    global _in_hand
    _in_hand = job.id
    with open(FOLDER / "begun", "a") as lines:
        lines.write(f"{job.id} {job.again}\n")
    hook = _hooks.get(job.id, "") if job.again == 0 else ""
    if hook == "kill":
        die()
    if hook.startswith("sleep"):
        time.sleep(float(hook.split()[1]))
    step("begin")


class DyingSystem:
    """The module os, but for steps before and after what makes a file appear."""

    def __getattr__(self, name: str) -> Any:
        return getattr(os, name)

    def rename(self, old: str, new: str) -> None:
        step("staged")
        os.rename(old, new)

    def link(self, old: str, new: str) -> None:
        step("record staged")
        os.link(old, new)
        step("recorded")


def halved(parts: Iterable[_store.Part]) -> Iterator[_store.Part]:
    """The same bytes, in more pieces."""
    for part in parts:
        whole = memoryview(part)
        yield whole[: len(whole) // 2]
        step("half")
        yield whole[len(whole) // 2 :]


def before(owner: Any, name: str, do: Callable[..., Any]) -> None:
    """Has a function do something first."""
    function = getattr(owner, name)

    def both(*words: Any, **named: Any) -> Any:
        do(*words, **named)
        return function(*words, **named)

    setattr(owner, name, both)


def with_hooks() -> None:
    """Puts the steps into the worker."""
    before(_worker.Worker, "_done", lambda _, job: begin(job))
    setattr(_store, "os", DyingSystem())
    staged, publish, job = _store.Store._staged, _broker.publish, _worker.Worker.job

    def in_pieces(self: _store.Store, name: str, parts: Iterable[_store.Part]) -> Any:
        return staged(self, name, halved(parts))

    def published(channel: Any, queue: str, body: bytes) -> None:
        publish(channel, queue, body)
        if queue == _broker.ENDS:
            step("told")

    def done(*words: Any) -> None:
        job(*words)
        step("acked")

    setattr(_store.Store, "_staged", in_pieces)
    setattr(_worker, "publish", published)
    setattr(_worker.Worker, "job", done)


def acknowledges_first() -> None:
    class Acknowledged:
        def __init__(self, channel: Any) -> None:
            self._channel = channel

        def __getattr__(self, name: str) -> Any:
            return getattr(self._channel, name)

        def basic_ack(self, tag: int) -> None:
            pass

    job = _worker.Worker.job

    def first(self: _worker.Worker, channel: Any, how: Any, properties: Any, body: bytes) -> None:
        channel.basic_ack(how.delivery_tag)
        job(self, Acknowledged(channel), how, properties, body)

    setattr(_worker.Worker, "job", first)


def nacks_for_later() -> None:
    def put_off(_: Any, channel: Any, how: Any, __: bytes, ___: str) -> None:
        channel.basic_nack(how.delivery_tag)
        time.sleep(_worker.PAUSE_S)

    setattr(_worker.Worker, "_put_off", put_off)


def takes_ten() -> None:
    _worker.PREFETCH = 10


def writes_in_place() -> None:
    def put(self: _store.Store, name: str, parts: Iterable[_store.Part]) -> None:
        with open(self._path(name), "wb", buffering=0) as file:
            for part in halved(parts):
                file.write(part)
                time.sleep(0.002)

    setattr(_store.Store, "put", put)


def blanks_nothing() -> None:
    class Calls:
        def __getattr__(self, name: str) -> Any:
            return getattr(_calls, name)

        def blank(self, *_: object) -> None:
            pass

    setattr(_look, "_calls", Calls())


CONTROLS: dict[str, Callable[[], None]] = {
    "acknowledge first": acknowledges_first,
    "classic queue": lambda: None,
    "nack for later": nacks_for_later,
    "prefetch 10": takes_ten,
    "write in place": writes_in_place,
    "no blanking": blanks_nothing,
}
"""Ways to be wrong. The classic queue is declared by the harness."""

if __name__ == "__main__":
    _hooks = json.loads((FOLDER / "hooks.json").read_text())
    with_hooks()
    control = os.environ.get("RAZVOLK_CONTROL", "")
    if control:
        CONTROLS[control]()
    sys.exit(_command.main())
