"""A simulation of the queue: jobs that come as a studio's day has them, workers and hosts that fail, service times as measured.

The seed makes it the same each time. `Machine` is the machine that was measured, so that the simulation can be held to what was
measured there; `site` is a site of any size.
"""

from __future__ import annotations

import math
import random
from collections.abc import Generator
from dataclasses import dataclass
from statistics import fmean as mean
from typing import Any

import simpy
from measure import Row, percentile

Process = Generator[Any, Any, None]

DAY = {9: 4, 10: 7, 11: 9, 12: 6, 13: 6, 14: 8, 15: 10, 16: 12, 17: 12, 18: 10, 19: 8, 20: 5, 21: 3}
"""How many of a hundred frames come in each hour of the day: studios upload when sittings end."""
SITTING = 40
"""Frames of a sitting, which one studio uploads one after the other."""
UPLOAD_S = 4.0
"""Seconds from frame to frame of an upload: 20 MB at 40 Mbit/s."""

WORKER_LIFE_S = 24 * 3_600.0
WORKER_START_S = 1.5
REDELIVERY_S = 0.01
HOST_CORES = 8
HOST_AWAY_S = 120.0
HEARTBEAT_S = 120.0
"""After so long the jobs of a host that is gone are delivered again: twice the heartbeat."""
ELECTION_S = 2.0
"""How long a queue waits for a new leader when a node of three is gone."""
BUSIEST_HOUR = max(DAY.values()) / 100
TURN_S = 0.001
"""How long a process has a core while others wait for it."""


class Machine:
    """One machine, whose cores the workers share with the broker and the callers, with the costs of one worker's row.

    A job takes its worker as long as it took one worker alone. The worker's and the broker's part of that need a core, and so does
    what is done to submit the job and to take its end. Those that need a core get it in turns, as processes do.
    """

    def __init__(self, one: Row, workers: int, cores: int, slower: float = 1, seed: int = 1):
        self._one, self._rnd, self._env = one, random.Random(seed), simpy.Environment()
        self._slower = slower
        self._caller = simpy.Resource(self._env)
        self._free = simpy.Resource(self._env, workers)
        self._core = simpy.Resource(self._env, cores)
        self._ends: list[float] = []

    def saturated(self, count: int) -> list[float]:
        """When jobs end that are all in the queue at the start."""
        for _ in range(count):
            self._env.process(self._worked(0.0))
        self._env.run()
        return self._ends

    def latencies(self, dues: list[float]) -> list[float]:
        """Seconds from when a job is due to its end."""
        for due in dues:
            self._env.process(self._submitted(due))
        self._env.run()
        return self._ends

    def _on_core(self, seconds: float) -> Process:
        while seconds > 0:
            turn = min(seconds, TURN_S)
            with self._core.request() as mine:
                yield mine
                yield self._env.timeout(turn)
            seconds -= turn

    def _submitted(self, due: float) -> Process:
        """One caller submits job after job, and waits for the broker each time."""
        yield self._env.timeout(due)
        with self._caller.request() as mine:
            yield mine
            took, one = self._rnd.choice(self._one.submit), self._one
            part = took / mean(one.submit)
            own, broker = part * one.submit_cpu, part * one.submit_broker_cpu
            yield from self._on_core(min(took, own + broker))
            yield self._env.timeout(max(0.0, took - own - broker))
        yield from self._worked(due)

    def _worked(self, due: float) -> Process:
        """A worker does the job, sends its end, and acknowledges it. It waits for the broker both times."""
        with self._free.request() as worker:
            yield worker
            took, one = self._slower * self._rnd.choice(self._one.service), self._one
            part = took / mean(one.service)
            own = min(took, part * one.worker_cpu)
            broker = part * one.broker_cpu
            awaited = min(broker, took - own)
            yield from self._on_core(own)
            yield self._env.timeout(took - own - awaited)
            yield from self._on_core(awaited / 2)
            self._env.process(self._told(due, broker - awaited))
            yield from self._on_core(awaited / 2)

    def _told(self, due: float, broker: float) -> Process:
        yield from self._on_core(broker + self._one.ends_cpu)
        self._ends.append(self._env.now - due)


@dataclass(frozen=True)
class Site:
    """A site in its busiest hour."""

    frames_a_day: float
    workers: int
    service: list[float]
    seed: int = 1

    @property
    def rate(self) -> float:
        """Frames a second in the busiest hour."""
        return self.frames_a_day * BUSIEST_HOUR / 3_600

    @property
    def length(self) -> float:
        """How many seconds are simulated: 10 minutes, and 20,000 frames at least."""
        return max(600.0, 20_000 / self.rate)


def site(plan: Site) -> list[float]:
    """Latencies while workers die now and then, one host of workers is gone for a while, and a node of the broker, too."""
    env, rnd = simpy.Environment(), random.Random(plan.seed)
    free, drowned = simpy.Resource(env, plan.workers), env.event()
    latencies: list[float] = []
    away_at, node_gone_at = plan.length / 3, plan.length * 2 / 3
    lost = min(HOST_CORES, plan.workers - 1)
    # The jobs that the host has in hand when it goes.
    in_hand = [0]

    def job() -> Process:
        came = env.now
        if node_gone_at <= came < node_gone_at + ELECTION_S:
            yield env.timeout(node_gone_at + ELECTION_S - came)
        while True:
            with free.request() as worker:
                yield worker
                took = rnd.choice(plan.service)
                if env.now < away_at <= env.now + took and in_hand[0] < lost:
                    in_hand[0] += 1
                    again = HEARTBEAT_S
                elif rnd.random() < took / WORKER_LIFE_S:
                    yield env.timeout(took * rnd.random() + WORKER_START_S)
                    again = REDELIVERY_S
                else:
                    yield env.timeout(took)
                    break
            yield env.timeout(again)
        latencies.append(env.now - came)

    def host_away() -> Process:
        yield env.timeout(away_at)
        held = [free.request() for _ in range(lost)]
        for request in held:
            yield request
        yield env.timeout(HOST_AWAY_S)
        for request in held:
            free.release(request)

    def watch() -> Process:
        while len(free.queue) < 20 * plan.rate + 50:
            yield env.timeout(5)
        drowned.succeed()

    for process in (host_away(), watch(), _uploads(env, rnd, plan, job)):
        env.process(process)
    env.run(drowned | env.timeout(plan.length + 300))
    return [math.inf] if drowned.triggered else latencies


def _uploads(env: Any, rnd: random.Random, plan: Site, job: Any) -> Process:
    """Sittings come at random, and each is uploaded frame by frame."""

    def sitting() -> Process:
        for _ in range(SITTING):
            env.process(job())
            yield env.timeout(rnd.expovariate(1 / UPLOAD_S))

    # Those that began before are under way.
    for _ in range(round(plan.rate * UPLOAD_S)):
        env.process(sitting())
    while env.now < plan.length:
        yield env.timeout(rnd.expovariate(plan.rate / SITTING))
        env.process(sitting())


def workers_for(
    frames_a_day: float, service: list[float], most_s: float = 5.0
) -> tuple[int, float]:
    """The least number of workers that holds a 99th percentile, and what it is then. Two at least."""

    def late(workers: int) -> float:
        return percentile(site(Site(frames_a_day, workers, service)), 0.99)

    low = max(1, int(Site(frames_a_day, 1, service).rate * mean(service)))
    high = max(2, low)
    while late(high) > most_s:
        low, high = high, high + max(HOST_CORES // 2, high // 20)
    while high - low > 1:
        middle = (low + high) // 2
        low, high = (low, middle) if late(middle) <= most_s else (middle, high)
    return high, late(high)
