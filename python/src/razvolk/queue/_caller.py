"""The caller's side: jobs are sent until the broker has them, and ends are told until they are taken. Both may be repeated: the
job's id makes it one.
"""

from __future__ import annotations

import contextlib
import json
import os
import signal
import threading
import time
from collections.abc import Iterator
from typing import Any, Callable, Optional

from pika.exceptions import AMQPError, NackError, UnroutableError

from . import _broker
from ._broker import ASIDE, ENDS, JOBS, Broker, publish
from ._job import Job, NotAJob, is_id, parse
from ._look import Fields

CONFIRM_S = 20
"""How long a confirm is waited for."""
PAUSE_S = 0.3


class NotSent(Exception):
    """The broker has not confirmed a job in time. To send it again is safe."""


class Caller:
    """Sends jobs and takes ends. One thread may use it; only the main thread is freed from a broker that never confirms."""

    def __init__(self, broker: Broker, patience: float = 60) -> None:
        self._broker, self._patience = broker, patience
        self._open: Any = None

    def submit(self, job: Job) -> None:
        """Returns when the broker has the job for good. Raises `NotSent` if it hasn't in time: the job may be sent again."""
        self._publish(JOBS, job.message())

    def _publish(self, queue: str, body: bytes) -> None:
        until = time.monotonic() + self._patience
        while True:
            try:
                with _within(CONFIRM_S):
                    publish(self._channel(), queue, body)
                return
            except NackError:
                self._again(until, "the queue is full")
            except UnroutableError:
                self._again(until, f"there is no queue {queue} (razvolk-queue declare makes it)")
            except (AMQPError, OSError) as fault:
                # To close the connection in order could hang as the confirm did.
                self._open = self._broker.connection = None
                self._again(until, _broker.why(fault))

    def _again(self, until: float, why: str) -> None:
        if time.monotonic() > until:
            raise NotSent(why)
        time.sleep(PAUSE_S)

    def _channel(self) -> Any:
        if self._open is None or not self._open.is_open:
            self._open = self._broker.channel()
        return self._open

    def ends(self, told: Callable[[bytes], None], wait: Optional[float] = None) -> None:
        """Calls `told` with each end, and lets the broker forget it when that has returned: an end may come twice, none is lost.

        `told` ends the loop by `StopIteration`; so do `wait` seconds without an end.
        """
        try:
            self._take_ends(told, wait)
        except StopIteration:
            pass
        finally:
            # A consumer that is left open is sent ends that nobody takes, until its connection is gone.
            self._broker.close()

    def _take_ends(self, told: Callable[[bytes], None], wait: Optional[float]) -> None:
        last = time.monotonic()
        while wait is None or time.monotonic() - last < wait:
            try:
                channel = self._broker.channel()
                channel.basic_qos(prefetch_count=100)
                for how, _, body in channel.consume(ENDS, inactivity_timeout=0.2):
                    if how is not None:
                        _take(channel, how, body, told)
                        last = time.monotonic()
                    elif wait is not None and time.monotonic() - last >= wait:
                        break
            except (AMQPError, OSError) as fault:
                if isinstance(fault, BrokenPipeError) or self._is_missing(fault):
                    raise
                time.sleep(PAUSE_S)

    @staticmethod
    def _is_missing(fault: BaseException) -> bool:
        """Whether a queue isn't there."""
        return getattr(fault, "reply_code", 0) == 404

    def aside(self, decide: Callable[[Fields], Optional[str]]) -> None:
        """Tells of each message that was set aside, and does what is decided: "again" sends it again, "drop" forgets it, None
        leaves it."""
        channel = self._broker.channel()
        left = channel.queue_declare(ASIDE, passive=True).method.message_count
        for _ in range(left):
            how, properties, body = channel.basic_get(ASIDE)
            if how is None:
                break
            decision = decide(_set_aside(properties, body))
            if decision == "again":
                publish(channel, JOBS, _sent_again(parse(body)).message())
            if decision is not None:
                channel.basic_ack(how.delivery_tag)
        # What is left goes back with the connection.
        self._broker.close()


def _take(channel: Any, how: Any, body: bytes, told: Callable[[bytes], None]) -> None:
    try:
        told(body)
    except StopIteration:
        channel.basic_ack(how.delivery_tag)
        raise
    channel.basic_ack(how.delivery_tag)


@contextlib.contextmanager
def _within(seconds: float) -> Iterator[None]:
    """Raises `TimeoutError` after so long: pika waits for a confirm without a limit."""
    if threading.current_thread() is not threading.main_thread():
        yield
        return

    def late(*_: object) -> None:
        raise TimeoutError("the broker doesn't confirm")

    before = signal.signal(signal.SIGALRM, late)
    signal.setitimer(signal.ITIMER_REAL, seconds)
    try:
        yield
    finally:
        signal.setitimer(signal.ITIMER_REAL, 0)
        signal.signal(signal.SIGALRM, before)


def _sent_again(job: Job) -> Job:
    return Job(job.id, job.file, job.want, job.fill, job.again + 1)


def _set_aside(properties: Any, body: bytes) -> Fields:
    """What an operator is told of a message."""
    headers = properties.headers or {}
    deaths = headers.get("x-death") or [{}]
    told: Fields = {
        "id": None,
        "file": None,
        "reason": headers.get("x-first-death-reason"),
        "at": str(deaths[0].get("time", "")),
    }
    try:
        job = parse(body)
        told.update(id=job.id, file=job.file, again=job.again)
    except NotAJob as fault:
        told.update(id=fault.id, error=str(fault), message=body[:200].decode("utf-8", "replace"))
    return told


def record(folder: str, id: str) -> Optional[Fields]:
    """The record of a job, or None as long as it has none. Of a job that was sent again, the last."""
    if not is_id(id):
        raise NotAJob(f"{id!r} is no job's id")
    found, again = None, 0
    while True:
        try:
            with open(os.path.join(folder, Job(id, "-", again=again).record), "rb") as file:
                found = json.load(file)
        except FileNotFoundError:
            return found
        again += 1
