"""The queue under load, with real parts: frames a second and latency, beside the same work without a queue."""

from __future__ import annotations

import itertools
import json
import multiprocessing
import random
import shutil
import subprocess
import sys
import time
from collections.abc import Sequence
from dataclasses import dataclass
from pathlib import Path
from typing import Any, Callable

import numpy as np
import psutil
import razvolk
from broker import Brokers, dies_with_parent
from razvolk.queue import Broker, Caller, Job, _broker
from razvolk.queue._metrics import Metrics
from razvolk.queue._store import Store
from razvolk.queue._worker import Worker

WANT = ("proof",)
PARTS = (0.5, 1.0)
"""The load under which latency is measured, as parts of what the queue did when it was never empty."""


@dataclass(frozen=True)
class Size:
    """A size of frames, and how many are taken."""

    width: int
    height: int
    saturated: int
    offered: int


SIZES = {"tiny": Size(64, 48, 2_000, 2_000), "20MP": Size(5_546, 3_714, 40, 60)}


@dataclass
class Row:
    """What was measured with frames of a size and so many workers. Seconds are for one job."""

    alone: float
    """Frames a second without a queue."""
    rate: float
    """Frames a second while the queue is never empty."""
    service: list[float]
    """Seconds from end to end meanwhile."""
    worker_cpu: float
    broker_cpu: float
    ends_cpu: float
    """Seconds of processor meanwhile, by workers, broker and who takes the ends."""
    submit: list[float]
    """Seconds that it took to submit a job, before there were workers."""
    submit_cpu: float
    submit_broker_cpu: float
    """Seconds of processor meanwhile, by who submits and by the broker."""
    late: list[list[float]]
    """Seconds from submission to end, for each of `PARTS`."""


def percentile(values: list[float], part: float) -> float:
    ordered = sorted(values)
    return ordered[min(int(len(ordered) * part), len(ordered) - 1)]


def gaps(times: list[float]) -> list[float]:
    """Seconds from end to end, without the first and the last tenth of the ends."""
    tenth = len(times) // 10
    middle = sorted(times)[tenth : len(times) - tenth]
    return [b - a for a, b in zip(middle, middle[1:])]


def rate_of(times: list[float]) -> float:
    """Ends a second, without the first and the last tenth of the ends."""
    between = gaps(times)
    return len(between) / sum(between)


def arrivals(rate: float, count: int) -> list[float]:
    """When jobs are due that come at random, so many a second. They are the same in each run, and in the simulation."""
    rnd = random.Random(1)
    return list(itertools.accumulate(rnd.expovariate(rate) for _ in range(count)))


def cpu(pid: int) -> float:
    """Seconds of processor that a process and those below it took."""
    total = 0.0
    root: Any = psutil.Process(pid)
    for process in [root, *root.children(recursive=True)]:
        times = process.cpu_times()
        total += times.user + times.system
    return total


class Client:
    """A process of its own that tells by a pipe: who submits doesn't wait for who takes ends, nor for who measures."""

    def __init__(self, do: Callable[..., None], *words: Any) -> None:
        fork = multiprocessing.get_context("fork")
        self.pipe, theirs = fork.Pipe()
        self._process = fork.Process(target=_begun, args=(do, theirs, *words), daemon=True)
        self._process.start()
        theirs.close()

    @property
    def pid(self) -> int:
        assert self._process.pid is not None
        return self._process.pid

    def told(self) -> Any:
        """What it tells next."""
        if not self.pipe.poll(300):
            raise RuntimeError("a process tells nothing")
        return self.pipe.recv()


def _begun(do: Callable[..., None], pipe: Any, *words: Any) -> None:
    dies_with_parent()
    do(pipe, *words)


def _work_alone(pipe: Any, source: str, out: str, jobs: list[Job], slot: str) -> None:
    """Does a worker's work without a queue; tells when each job ended."""
    worker = Worker(Broker([]), source, Store(out, slot), Metrics(None), 60)
    times = []
    for job in jobs:
        worker._record(job, worker._done(job))
        times.append(time.monotonic())
    pipe.send(times)


def _submit(pipe: Any, urls: list[str], jobs: list[Job], dues: list[float]) -> None:
    """Submits jobs when they are due; tells when it began, how long each took, and its seconds of processor."""
    caller = Caller(Broker(urls))
    caller._channel()
    pipe.send("ready")
    pipe.recv()
    began, used, took = time.monotonic(), time.process_time(), []
    for job, due in zip(jobs, dues):
        time.sleep(max(0.0, began + due - time.monotonic()))
        at = time.monotonic()
        caller.submit(job)
        took.append(time.monotonic() - at)
    pipe.send((began, took, time.process_time() - used))


def _take_ends(pipe: Any, urls: list[str], marks: Sequence[int]) -> None:
    """Takes ends until it has as many as the last mark; tells when it has as many as a mark, and at last when each came."""
    at: dict[str, float] = {}

    def told(end: bytes) -> None:
        before = len(at)
        at.setdefault(json.loads(end)["id"], time.monotonic())
        if before < len(at) in marks:
            pipe.send(len(at))
        if len(at) == marks[-1]:
            raise StopIteration

    Caller(Broker(urls)).ends(told)
    pipe.send(at)


class Bench:
    """Folders, frames and a broker."""

    def __init__(self, folder: Path) -> None:
        self.folder, self.source = folder, folder / "source"
        self.source.mkdir(parents=True)
        (self.source / ".razvolk").touch()
        self.brokers = Brokers(folder / "brokers")
        self.out = folder / "out"
        self._runs = 0

    def start(self) -> None:
        rng = np.random.default_rng(1)
        for size in SIZES.values():
            slope = np.add.outer(np.arange(size.height), np.arange(size.width)) % 9_000
            noise = rng.integers(0, 200, (size.height, size.width))
            razvolk.imwrite(self.file(size), (slope + noise).astype(np.uint16), colours="RGGB")
        self.brokers.start()
        _broker.declare(Broker(self.brokers.urls))

    def end(self) -> None:
        self.brokers.end()
        shutil.rmtree(self.folder)

    def file(self, size: Size) -> Path:
        return self.source / f"{size.width}.srw"

    def row(self, size: Size, workers: int) -> Row:
        """Measures."""
        alone = self._alone(size, workers)
        row = self._saturated(size, workers, alone)
        row.late = [self._latencies(size, workers, part * row.rate) for part in PARTS]
        return row

    def _jobs(self, size: Size, count: int) -> list[Job]:
        """New jobs, and an empty output folder for them."""
        shutil.rmtree(self.out, ignore_errors=True)
        self.out.mkdir()
        (self.out / ".razvolk").touch()
        self._runs += 1
        name = self.file(size).name
        return [Job(f"run{self._runs}-{i}", name, WANT) for i in range(count)]

    def _alone(self, size: Size, processes: int) -> float:
        """Frames a second of processes that do a worker's work without a queue."""
        jobs, folders = self._jobs(size, size.saturated), (str(self.source), str(self.out))
        children = [
            Client(_work_alone, *folders, jobs[i::processes], str(i)) for i in range(processes)
        ]
        return rate_of([time for child in children for time in child.told()])

    def _saturated(self, size: Size, count: int, alone: float) -> Row:
        """All jobs are in the queue before the workers start. The first and last tenth of the ends aren't counted."""
        jobs = self._jobs(size, size.saturated)
        tenth = len(jobs) // 10
        self._hold_queues(ends=0)
        ends = self._ends(tenth, len(jobs) - tenth, len(jobs))
        submit, submit_cpu, submit_broker_cpu = self._submitted(jobs)
        workers = self._workers(count)
        try:
            ends.told()
            before = self._cpu(workers, ends)
            ends.told()
            after = self._cpu(workers, ends)
            ends.told()
            times = list(ends.told().values())
        finally:
            _stop(workers)
        worker, broker, taking = ((b - a) / (len(jobs) - 2 * tenth) for a, b in zip(before, after))
        costs = (worker, broker, taking, submit, submit_cpu, submit_broker_cpu)
        return Row(alone, rate_of(times), gaps(times), *costs, late=[])

    def _submitted(self, jobs: list[Job]) -> tuple[list[float], float, float]:
        """Submits jobs as fast as one caller can. Seconds for each, and seconds of processor for a job, by caller and broker."""
        caller = Client(_submit, self.brokers.urls, jobs, [0.0] * len(jobs))
        caller.told()
        before = cpu(self.brokers.nodes[0].pid)
        caller.pipe.send("go")
        _, took, used = caller.told()
        by_broker = cpu(self.brokers.nodes[0].pid) - before
        return took, used / len(jobs), by_broker / len(jobs)

    def _latencies(self, size: Size, count: int, rate: float) -> list[float]:
        """Seconds from when a job is due to its end, of jobs that come at random, so many a second."""
        jobs = self._jobs(size, 2 * count + size.offered)
        first, jobs = jobs[: 2 * count], jobs[2 * count :]
        self._hold_queues(ends=0)
        ends = self._ends(len(first), len(first) + len(jobs))
        dues = arrivals(rate, len(jobs))
        caller = Client(_submit, self.brokers.urls, jobs, dues)
        workers = self._workers(count)
        try:
            self._hold_queues(ends=1, jobs=count)
            self._submitted(first)
            ends.told()
            time.sleep(0.5)
            caller.told()
            caller.pipe.send("go")
            began, _, _ = caller.told()
            ends.told()
            times = ends.told()
        finally:
            _stop(workers)
        return [times[job.id] - began - due for job, due in zip(jobs, dues)]

    def _ends(self, *marks: int) -> Client:
        ends = Client(_take_ends, self.brokers.urls, marks)
        self._hold_queues(ends=1)
        return ends

    def _hold_queues(self, ends: int, jobs: int = 0) -> None:
        """Waits until so many take ends and jobs: an end that is sent to somebody else would come late."""
        until = time.monotonic() + 30
        broker = Broker(self.brokers.urls)
        channel = broker.channel()
        wanted = {_broker.ENDS: ends, _broker.JOBS: jobs}
        for queue, count in wanted.items():
            while channel.queue_declare(queue, passive=True).method.consumer_count != count:
                if time.monotonic() > until:
                    raise RuntimeError(f"{queue} has not {count} consumers")
                time.sleep(0.02)
        broker.close()

    def _workers(self, count: int) -> list[subprocess.Popen[bytes]]:
        folders = ["--source", str(self.source), "--out", str(self.out)]
        command = [sys.executable, "-m", "razvolk.queue", "--broker", self.brokers.urls[0], "work"]
        return [
            subprocess.Popen(
                [*command, *folders, "--slot", str(i)],
                stderr=subprocess.DEVNULL,
                preexec_fn=dies_with_parent,
            )
            for i in range(count)
        ]

    def _cpu(self, workers: list[subprocess.Popen[bytes]], ends: Client) -> tuple[float, ...]:
        broker = self.brokers.nodes[0].pid
        return sum(cpu(worker.pid) for worker in workers), cpu(broker), cpu(ends.pid)


def _stop(workers: list[subprocess.Popen[bytes]]) -> None:
    for worker in workers:
        worker.terminate()
    for worker in workers:
        worker.wait()
