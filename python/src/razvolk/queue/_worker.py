"""A worker: one process, one buffer of samples for its life. It remembers nothing: RabbitMQ counts, keeps and delivers again.

The order of what it does is what keeps the promise: outputs, then the record (the job is done from here on), then the end is
published and confirmed, then the job is acknowledged. A worker that dies anywhere leaves a job that is done again, with the same
bytes.
"""

from __future__ import annotations

import contextlib
import faulthandler
import json
import logging
import signal
import time
from collections.abc import Iterator
from typing import Any

from pika.exceptions import AMQPError

from . import _broker, _store
from ._broker import ASIDE_ENDS, ENDS, JOBS, LATER, Announcer, Broker, publish, wait_for_room
from ._job import Job, NotAJob, parse
from ._look import Fields, Look, begun, text, unreadable
from ._metrics import Metrics
from ._store import Later, Store, Unreadable

PREFETCH = 1
"""A worker holds the job that it does, and no other: what it holds when it dies counts as tried."""
PAUSE_S = 0.5
"""How long a worker waits after it put a job off, or lost its broker."""

_log = logging.getLogger("razvolk.queue")


class Worker:
    """Takes job after job until it is told to stop."""

    def __init__(self, broker: Broker, source: str, store: Store, metrics: Metrics, limit: float):
        self._broker, self._source, self._store, self._metrics = broker, source, store, metrics
        self._look = Look()
        self._limit = limit
        self._announce = Announcer()
        self._consumers: list[str] = []
        self.stopping = False

    def stop(self, *_: object) -> None:
        """Ends after the job in hand. To be a signal's handler."""
        self.stopping = True

    def run(self) -> None:
        """Works. What the broker or the host can't do at present is waited for."""
        signal.signal(signal.SIGTERM, self.stop)
        signal.signal(signal.SIGINT, self.stop)
        while not self.stopping:
            try:
                self._store.open()
                self._consume()
            except Later as fault:
                self._wait(str(fault))
            except (AMQPError, OSError) as fault:
                self._wait(_broker.why(fault))
        self._broker.close()
        _log.info("stopped in order")

    def _wait(self, why: str) -> None:
        self._announce(f"waiting: {why}")
        time.sleep(PAUSE_S)

    def _consume(self) -> None:
        with self._watched():
            channel = self._broker.channel()
            wait_for_room(channel)
            channel.basic_qos(prefetch_count=PREFETCH)
            self._consumers = [
                channel.basic_consume(JOBS, self.job),
                channel.basic_consume(ASIDE_ENDS, self.set_aside),
            ]
        self._announce(f"working as {self._store.tag}", logging.INFO)
        while not self.stopping:
            self._broker.connection.process_data_events(1)
            if not self._consumers_live(channel):
                raise OSError("a queue was deleted, or its node is gone")
        with self._watched():
            self._cancel(channel)

    def _consumers_live(self, channel: Any) -> bool:
        """Whether the broker still delivers: it cancels a consumer whose queue is deleted."""
        return len(channel.consumer_tags) == len(self._consumers)

    def _cancel(self, channel: Any) -> None:
        """Takes no further job: one that was on its way would count as tried."""
        consumers, self._consumers = self._consumers, []
        for consumer in consumers:
            channel.basic_cancel(consumer)

    @contextlib.contextmanager
    def _watched(self) -> Iterator[None]:
        """Ends the process if something hangs: a file system, or a broker that never confirms. The job counts as tried then.

        The limit is below the heartbeat's, so that a job isn't taken away by the broker while it is done.
        """
        faulthandler.dump_traceback_later(self._limit, exit=True)
        try:
            yield
        finally:
            faulthandler.cancel_dump_traceback_later()

    def job(self, channel: Any, how: Any, _: Any, body: bytes) -> None:
        """Does a job that was delivered."""
        began = time.monotonic()
        with self._watched():
            try:
                job = parse(body)
                end = self._store.get(job.record) or self._record(job, self._done(job))
            except NotAJob as fault:
                _log.warning("set aside, no job: %s", fault)
                channel.basic_nack(how.delivery_tag, requeue=False)
                return
            except (Later, MemoryError) as fault:
                self._put_off(channel, how, body, str(fault) or "out of memory")
                return
            publish(channel, ENDS, end)
            if self.stopping:
                self._cancel(channel)
            channel.basic_ack(how.delivery_tag)
        self._metrics.ended(_status(end), time.monotonic() - began, how.redelivered)
        self._announce("at work", logging.INFO)

    def _done(self, job: Job) -> Fields:
        """Writes the outputs of a job; what its record is to tell."""
        record = begun(job)
        try:
            data = _store.source(self._source, job.file)
        except Unreadable as fault:
            record.update(unreadable(str(fault)))
            return record
        for output in self._look.outputs(job, data, record):
            self._store.put(output.name, output.parts)
        return record

    def _record(self, job: Job, record: Fields) -> bytes:
        """Writes a job's record. Another worker's may have come first: that one holds."""
        return self._store.put_once(job.record, text(record))

    def _put_off(self, channel: Any, how: Any, body: bytes, why: str) -> None:
        """Sends a job through the delay queue, as a new message: its tries are counted anew. To nack it would count as a try."""
        publish(channel, LATER, body)
        if self.stopping:
            self._cancel(channel)
        channel.basic_ack(how.delivery_tag)
        self._metrics.put_off()
        self._announce(f"later: {why}")
        time.sleep(PAUSE_S)

    def set_aside(self, channel: Any, how: Any, properties: Any, body: bytes) -> None:
        """Writes the end of a job that RabbitMQ set aside, unless a try that was killed came as far as a record."""
        with self._watched():
            try:
                self._end_aside(channel, body, _reason(properties))
            except Later as fault:
                self._announce(f"later: {fault}")
                time.sleep(PAUSE_S)
                # This queue has no limit of tries.
                channel.basic_nack(how.delivery_tag)
                return
            channel.basic_ack(how.delivery_tag)

    def _end_aside(self, channel: Any, body: bytes, reason: str) -> None:
        try:
            job = parse(body)
            record = begun(job)
        except NotAJob as fault:
            if fault.id is None:
                return
            job, reason = Job(fault.id, "-"), f"no job: {fault}"
            record = {"id": job.id, "file": None}
        record.update(status="aside", clean=False, error=reason)
        end = self._store.get(job.record) or self._record(job, record)
        publish(channel, ENDS, end)
        self._metrics.ended(_status(end), 0.0, False)


def _reason(properties: Any) -> str:
    """Why RabbitMQ set a message aside, in words."""
    reason = (properties.headers or {}).get("x-first-death-reason")
    if reason == "delivery_limit":
        return f"its worker died {_broker.TRIES} times"
    return f"set aside by the broker: {reason}"


def _status(end: bytes) -> str:
    return str(json.loads(end)["status"])
