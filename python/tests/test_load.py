"""The simulation of the queue where theory knows the answer, and what it is held to."""

from __future__ import annotations

import os
import random
import sys
from dataclasses import replace
from itertools import accumulate
from pathlib import Path
from statistics import fmean as mean

import pytest

pytest.importorskip("simpy")
sys.path += [str(Path(os.environ["RAZVOLK_ROOT"], "python", part)) for part in ("load", "faults")]

from load import HELD, compared  # noqa: E402
from measure import Row, gaps, rate_of  # noqa: E402
from simulate import Machine, workers_for  # noqa: E402

NOTHING = 1e-9


def costs(service: list[float], worker: float, broker: float = 0.0, ends: float = 0.0) -> Row:
    """A row of jobs that take no time to submit."""
    return Row(0, 0, service, worker, broker, ends, [NOTHING], NOTHING, 0.0, [])


def at_random(rate: float, count: int = 20_000) -> list[float]:
    rnd = random.Random(2)
    return list(accumulate(rnd.expovariate(rate) for _ in range(count)))


def test_one_worker_is_the_queue_with_one_server() -> None:
    """Pollaczek and Khinchine: half busy with equal jobs, a job waits for half of one on average."""
    late = Machine(costs([0.01], 0.01), 1, 2).latencies(at_random(50))
    assert mean(late) == pytest.approx(0.015, rel=0.03)


def test_cores_are_shared_in_turns() -> None:
    """A core that all jobs share by turns, half busy, takes twice as long for a job on average."""
    late = Machine(costs([0.04], 0.04), 1_000, 1).latencies(at_random(12.5, 5_000))
    assert mean(late) == pytest.approx(0.08, rel=0.06)


@pytest.mark.parametrize(
    ("workers", "cores", "rate"), [(1, 2, 250.0), (2, 2, 400.0), (4, 2, 400.0), (4, 8, 1_000.0)]
)
def test_cores_or_workers_are_the_limit(workers: int, cores: int, rate: float) -> None:
    """A job takes its worker 4 ms, and all of them 5 ms of processor."""
    made = Machine(costs([0.004], 0.003, 0.001, 0.001), workers, cores).saturated(2_000)
    assert rate_of(made) == pytest.approx(rate, rel=0.06)


def test_a_gap_is_seen() -> None:
    times = [i * 0.1 for i in range(20)] + [5 + i * 0.1 for i in range(20)]
    assert len(gaps(times)) == 31
    assert max(gaps(times)) == pytest.approx(3.1)
    assert rate_of(times) == pytest.approx(31 / (5 + 1.5 - 0.4))


@pytest.mark.parametrize(
    ("rate", "half", "full", "wrong"),
    [
        (10, 0.104, 0.45, ""),
        (8, 0.104, 0.45, "a second"),
        (12, 0.104, 0.45, "a second"),
        (10, 0.07, 0.45, "half load"),
        (10, 0.4, 0.45, "half load"),
        (10, 0.104, 0.15, "full load"),
        (10, 0.104, 2.0, "full load"),
    ],
)
def test_what_the_simulation_is_held_to(rate: float, half: float, full: float, wrong: str) -> None:
    """Jobs take 0.1 s, and one worker was measured at this rate, with these medians."""
    assert HELD["20MP-1"] == HELD["20MP-2"] == 3
    row = replace(costs([0.1], 0.1), rate=rate, late=[[half], [full]])
    told = "; ".join(compared({"20MP-1": row}))
    assert (wrong in told) if wrong else not told


def test_the_least_workers_are_found() -> None:
    """30 frames a second keep 3 workers busy; a host of 8 that goes away must be spare."""
    workers, late = workers_for(30 * 3_600 / 0.12, [0.1])
    assert 11 <= workers <= 14 and 0 < late <= 5
