"""What is wrong with what a run left: nothing may be."""

from __future__ import annotations

import collections
import json
import os
import shutil
from pathlib import Path

from inputs import STATUSES
from razvolk.queue import Job
from razvolk.queue._broker import TRIES, Broker
from razvolk.queue._metrics import Metrics
from razvolk.queue._store import Store
from razvolk.queue._worker import Worker
from run import JUNK, Run

Faults = collections.Counter[str]


def judge(run: Run) -> Faults:
    """The faults of a run by their names, and how often."""
    faults: Faults = collections.Counter()
    for id, (kind, job) in run.jobs.items():
        faults[_fault_of_end(run, kind, job)] += 1
    faults.update(_alone(run))
    faults.update(_left_over(run))
    faults.update(_strange(run))
    del faults[""]
    return faults


def _fault_of_end(run: Run, kind: str, job: Job) -> str:
    """What is wrong with the end of a job, or nothing."""
    end, record = run.seen.ends.get(job.id), run.out / job.record
    if end is None:
        return "jobs without an end"
    if not record.exists() or record.read_bytes() != end:
        return "ends that aren't the record"
    status = json.loads(end)["status"]
    if kind == "poison":
        return "" if status == "aside" else "poison that isn't set aside"
    if status == "aside" or any(told["id"] == job.id for told in run.seen.aside):
        return "innocents set aside"
    return "" if status in STATUSES[kind] else f"{kind} frames that end as {status}"


def _alone(run: Run) -> Faults:
    """Does each job alone on a fresh worker, a process of its own, and compares all files byte for byte."""
    faults: Faults = collections.Counter()
    alone = run.folder / "alone"
    for id, (kind, job) in run.jobs.items():
        jobs = [job] if kind != "poison" else []
        if id in run.sent_again:
            jobs.append(Job(job.id, job.file, job.want, job.fill, again=1))
        for one in jobs:
            shutil.rmtree(alone, ignore_errors=True)
            alone.mkdir()
            (alone / ".razvolk").touch()
            _in_fresh_worker(run, one, alone)
            faults[_difference(run.out, alone)] += 1
    return faults


def _in_fresh_worker(run: Run, job: Job, out: Path) -> None:
    child = os.fork()
    if child == 0:
        status = 1
        try:
            store = Store(str(out), "alone")
            worker = Worker(Broker([]), str(run.source), store, Metrics(None), 60)
            worker._record(job, worker._done(job))
            status = 0
        finally:
            os._exit(status)
    if os.waitpid(child, 0)[1] != 0:
        raise RuntimeError(f"{job} fails alone")


def _difference(out: Path, alone: Path) -> str:
    for made in sorted(alone.iterdir()):
        if made.name.startswith("."):
            continue
        try:
            if (out / made.name).read_bytes() != made.read_bytes():
                return f"{made.suffix} files that differ from a fresh worker's"
        except FileNotFoundError:
            return f"{made.suffix} files missing"
    return ""


def _left_over(run: Run) -> Faults:
    """Files that nobody asked for, or that are half written."""
    faults: Faults = collections.Counter()
    for path in run.out.iterdir():
        if path.name.startswith("."):
            faults["half written files"] += path.name.endswith(".part")
        elif path.name.split(".")[0] not in run.jobs and path.name != "odd-file.json":
            faults["strange files"] += 1
    return faults


def _strange(run: Run) -> Faults:
    """What else must not be."""
    seen, plan = run.seen, run.plan
    faults: Faults = collections.Counter()
    faults["ends that changed"] = len(seen.other_end)
    known = {*run.jobs, *(f"{id} again" for id in run.sent_again), "odd-file"}
    faults["ends of no job"] = len(set(seen.ends) - known)
    faults["workers that didn't stop in order"] = sum(status != 0 for status in seen.exits)
    faults["jobs left in a queue"] = seen.left["razvolk.jobs"] + seen.left["razvolk.later"]
    faults["asides without their end"] = seen.left["razvolk.aside.ends"]
    faults["junk that isn't aside"] = abs(
        sum("error" in told for told in seen.aside) - len(JUNK) - 1
    )
    for name, count in seen.reader.items():
        if name != "looks":
            faults[f"seen: {name}"] = count
    tries = poison_tries(run)
    faults["poison begun too often"] = sum(count > TRIES for count in tries)
    faults["poison not sent again"] = len(tries) - len(run.sent_again)
    faults["memory that grows"] = int(_growth(run) > 16 << 20) if plan.jobs >= 1_000 else 0
    return faults


def poison_tries(run: Run) -> list[int]:
    """How often each poison job was begun. A kill that finds it in hand before its begin counts as a try, too."""
    begun = collections.Counter((run.folder / "begun").read_text().splitlines())
    return [begun[f"{id} 0"] for id, (kind, _) in run.jobs.items() if kind == "poison"]


def _growth(run: Run) -> int:
    """How many bytes the worker that lived longest grew by after the first third of its life."""
    life = max(run.seen.memory.values(), key=len)
    return max(life) - max(life[: len(life) // 3])
