"""One run of the queue under faults, with real parts: brokers of its own, the command's workers, submit and ends, and a reader.

A single thread starts, kills and listens; what it saw is judged at the end by `judge.py`.
"""

from __future__ import annotations

import collections
import heapq
import itertools
import json
import os
import random
import signal
import subprocess
import sys
import time
from dataclasses import dataclass, field
from pathlib import Path
from typing import IO, Any, Callable, Optional

import pika
from broker import Brokers, dies_with_parent
from inputs import make
from razvolk.queue import Broker, Job, _broker
from razvolk.queue._broker import JOBS
from worker import STEPS

HERE = Path(__file__).resolve().parent
COMMAND = [sys.executable, "-m", "razvolk.queue"]
UNCONFIRMED = 40
JUNK = (b"", b"{", b"[1]", b"\xff\xfe", b'{"id": 3, "file": "x"}', b'{"id": "../x", "file": "x"}')
ODD = b'{"id": "odd-file", "file": "../../etc/passwd"}'
"""A message with an id, which is no job: it is set aside, and gets an end."""


@dataclass
class Plan:
    """What a run does. Times are parts of the time in which jobs are sent."""

    jobs: int
    rate: float
    kills: int
    poison: int = 2
    workers: int = 2
    nodes: int = 1
    seed: int = 1
    broker_kills: tuple[float, ...] = ()
    broker_stops: tuple[float, ...] = ()
    source_away: tuple[float, ...] = ()
    disk_full: tuple[float, ...] = ()
    faults_until: float = 0.75
    fault_s: float = 6
    drain_s: float = 90
    sleeps: tuple[float, float] = (0.02, 0.1)
    control: str = ""

    @property
    def sending_s(self) -> float:
        return self.jobs / self.rate


@dataclass
class Seen:
    """What came of a run."""

    ends: dict[str, bytes] = field(default_factory=dict)
    again: int = 0
    other_end: list[str] = field(default_factory=list)
    counts: collections.Counter[str] = field(default_factory=collections.Counter)
    memory: dict[int, list[int]] = field(default_factory=dict)
    sent_at: dict[str, float] = field(default_factory=dict)
    took: list[float] = field(default_factory=list)
    lines: list[str] = field(default_factory=list)
    aside: list[dict[str, Any]] = field(default_factory=list)
    left: dict[str, int] = field(default_factory=dict)
    exits: list[int] = field(default_factory=list)
    reader: dict[str, int] = field(default_factory=dict)


def jobs_of(
    plan: Plan, files: dict[str, list[str]]
) -> tuple[dict[str, tuple[str, Job]], dict[str, str]]:
    """The jobs by id, each with its kind, and what happens to some of them."""
    rnd = random.Random(plan.seed)
    kinds = ["whole"] * 40 + ["upward"] * 20 + ["cut"] * 14 + ["damaged"] * 14 + ["hostile"] * 8
    kinds += ["missing"] * 4
    wants = [
        (),
        ("proof",),
        ("proof", "v0"),
        ("picture",),
        ("v0", "v2"),
        ("picture", "proof", "v0", "v2"),
    ]
    jobs: dict[str, tuple[str, Job]] = {}
    hooks: dict[str, str] = {}
    poison_at = {rnd.randrange(plan.jobs) for _ in range(plan.poison)}
    for i in range(plan.jobs):
        kind = "poison" if i in poison_at else rnd.choice(kinds)
        file = rnd.choice(files["whole" if kind == "poison" else kind])
        fill = rnd.choice([None, None, 0, 6_000])
        job = Job(f"{kind[:6]}-{i:05}", file, rnd.choice(wants), fill)
        jobs[job.id] = (kind, job)
        chance = rnd.random()
        if kind == "poison":
            hooks[job.id] = "kill"
        elif chance < 0.3:
            hooks[job.id] = f"sleep {rnd.uniform(*plan.sleeps):.3f}"
        elif chance < 0.36:
            hooks[job.id] = f"once {rnd.choice(STEPS)}"
    return jobs, hooks


class Slot:
    """A supervisor's part: a worker is started again when it is gone."""

    def __init__(self, run: Run, number: int) -> None:
        self._run, self._number = run, number
        self.starts = 0
        self.start()

    def start(self) -> None:
        self.starts += 1
        words = [
            "work",
            "--source",
            self._run.source,
            "--out",
            self._run.out,
            "--slot",
            self._number,
        ]
        self.process = self._run.spawn(
            [sys.executable, HERE / "worker.py", *words], log=f"worker{self._number}.log"
        )


class Run:
    """A run in a folder of its own. The output folder is at hand already, with its marker."""

    def __init__(self, plan: Plan, folder: Path, say: Callable[[str], None]) -> None:
        self.plan, self.folder, self._say = plan, folder, say
        self.out, self.source, self.seen = folder / "out", folder / "source", Seen()
        (folder / "once").mkdir(parents=True)
        self.jobs, hooks = jobs_of(plan, make(self.source, plan.seed))
        (folder / "hooks.json").write_text(json.dumps(hooks))
        (folder / "begun").touch()
        self.brokers = Brokers(folder / "brokers", plan.nodes)
        self._environment = {
            **os.environ,
            "RAZVOLK_BROKERS": " ".join(self.brokers.urls),
            "RAZVOLK_FAULTS": str(folder),
            "RAZVOLK_CONTROL": plan.control,
        }
        self._events: list[tuple[float, int, Callable[[], None]]] = []
        self._numbers = itertools.count()
        self._processes: list[subprocess.Popen[bytes]] = []
        self.slots: list[Slot] = []
        self._confirmed: set[str] = set()
        self._fed: set[str] = set()
        self._rest = self._told = b""
        self._rnd = random.Random(plan.seed + 1)

    def spawn(
        self, command: list[Any], log: str, stdin: Any = subprocess.DEVNULL, stdout: Any = None
    ) -> subprocess.Popen[bytes]:
        """Starts a process that ends with this one."""
        with open(self.folder / log, "ab") as output:
            process = subprocess.Popen(
                [str(word) for word in command],
                env=self._environment,
                stdin=stdin,
                stdout=output if stdout is None else stdout,
                stderr=output,
                preexec_fn=dies_with_parent,
            )
        self._processes.append(process)
        return process

    # ---- from the start to the end

    def go(self) -> Seen:
        """Starts all, sends all with faults, waits for the ends, and stops all in order."""
        self.brokers.start()
        self._declare()
        self.out.mkdir(exist_ok=True)
        (self.out / ".razvolk").touch()
        self._reader = self.spawn(
            [sys.executable, HERE / "reader.py", self.out, self.folder / "seen.json"], "reader.log"
        )
        self._ends = open(self.folder / "ends", "w+b")
        self.spawn([*COMMAND, "ends"], "ends.log", stdout=self._ends)
        self._ends_read = open(self.folder / "ends", "rb")
        self._submitter = self._start_submitter()
        self.slots = [Slot(self, number) for number in range(self.plan.workers)]
        self._began = time.monotonic()
        self._plan_faults()
        self._send()
        self._drain()
        self._look_at_queues()
        self._stop()
        return self.seen

    def _declare(self) -> None:
        broker = Broker(self.brokers.urls)
        if self.plan.control == "classic queue":
            classic = {"x-dead-letter-exchange": _broker.DEAD}
            broker.channel().queue_declare(JOBS, durable=True, arguments=classic)
        _broker.declare(broker)

    def _start_submitter(self) -> subprocess.Popen[bytes]:
        words = ["submit", "--jobs", "--patience", "300"]
        process = self.spawn(
            [*COMMAND, *words], "submit.log", stdin=subprocess.PIPE, stdout=subprocess.PIPE
        )
        os.set_blocking(self._pipe(process.stdout).fileno(), False)
        return process

    @staticmethod
    def _pipe(pipe: Optional[IO[bytes]]) -> IO[bytes]:
        assert pipe is not None
        return pipe

    def _now(self) -> float:
        return time.monotonic() - self._began

    def _send(self) -> None:
        """Feeds jobs at the plan's rate, and some of them twice, until the broker has confirmed all."""
        waiting = collections.deque(self.jobs)
        for id in self._rnd.sample(list(self.jobs), len(self.jobs) * 3 // 100):
            waiting.insert(self._rnd.randrange(len(waiting)), id)
            self.seen.counts["jobs sent twice"] += 1
        until = self.plan.sending_s * 3 + 120
        while len(self._confirmed) < len(self.jobs) and self._now() < until:
            due = self._now() * self.plan.rate
            if waiting and len(self._fed) < due and len(self._fed - self._confirmed) < UNCONFIRMED:
                self._feed(waiting.popleft())
            else:
                self._tick()

    def _feed(self, id: str) -> None:
        self._fed.add(id)
        self.seen.sent_at.setdefault(id, time.monotonic())
        try:
            pipe = self._pipe(self._submitter.stdin)
            pipe.write(self.jobs[id][1].message() + b"\n")
            pipe.flush()
        except BrokenPipeError:
            self._say("the submitter is gone")

    def _tick(self) -> None:
        """What is to be done all the time."""
        while self._events and self._events[0][0] < self._now():
            heapq.heappop(self._events)[2]()
        for slot in self.slots:
            status = slot.process.poll()
            if status is not None:
                self.seen.counts[f"workers gone by {status}"] += 1
                slot.start()
        self._hear()
        self._weigh()
        time.sleep(0.01)

    def _hear(self) -> None:
        """Takes in what submit and ends have printed."""
        told = self._pipe(self._submitter.stdout).read() or b""
        *lines, self._told = (self._told + told).split(b"\n")
        self._confirmed.update(line.decode() for line in lines)
        *lines, self._rest = (self._rest + self._ends_read.read()).split(b"\n")
        for line in lines:
            end = json.loads(line)
            # The end of a job that was sent again is another.
            id = f"{end['id']} again" if "again" in end else end["id"]
            if id in self.seen.ends:
                self.seen.again += 1
                if self.seen.ends[id] != line + b"\n":
                    self.seen.other_end.append(id)
                continue
            self.seen.ends[id] = line + b"\n"
            if id in self.seen.sent_at:
                self.seen.took.append(time.monotonic() - self.seen.sent_at[id])

    def _weigh(self) -> None:
        """Notes the memory of each worker."""
        for slot in self.slots:
            try:
                pages = int(Path(f"/proc/{slot.process.pid}/statm").read_text().split()[1])
            except (OSError, IndexError):
                continue
            self.seen.memory.setdefault(slot.process.pid, []).append(pages * 4096)

    # ---- faults

    def _at(self, when: float, do: Callable[[], None]) -> None:
        heapq.heappush(self._events, (when, next(self._numbers), do))

    def _plan_faults(self) -> None:
        plan, length = self.plan, self.plan.sending_s
        for _ in range(plan.kills):
            self._at(self._rnd.uniform(1, length * plan.faults_until), self._kill_worker)
        for number, part in enumerate(plan.broker_kills):
            self._at(part * length, lambda number=number: self._kill_node(number))  # type: ignore
        for part in plan.broker_stops:
            self._at(part * length, self._stop_node)
        for part in plan.source_away:
            self._at(part * length, self._take_source)
        for part in plan.disk_full:
            self._at(part * length, self._fill_disk)
        if plan.kills:
            self._at(0.4 * length, self._kill_submitter)
        self._at(0.5 * length, self._send_junk)

    def _kill_worker(self) -> None:
        process = self._rnd.choice(self.slots).process
        if process.poll() is not None:
            self._at(self._now() + 0.05, self._kill_worker)
            return
        process.kill()
        self.seen.counts["workers killed"] += 1

    def _kill_submitter(self) -> None:
        """A caller that dies, and sends all again that it didn't see confirmed."""
        self._submitter.kill()
        self._submitter.wait()
        self._hear()
        self._submitter = self._start_submitter()
        self._told = b""
        for id in sorted(self._fed - self._confirmed):
            self._feed(id)
        self.seen.counts["callers killed"] += 1

    def _kill_node(self, number: int) -> None:
        node = self.brokers.nodes[number % len(self.brokers.nodes)]
        node.kill()
        self.seen.counts["brokers killed"] += 1
        # A cluster works on without one of its nodes.
        down = 8.0 if len(self.brokers.nodes) > 1 else 0.2
        ended, at = len(self.seen.ends), self._now()
        self._at(at + down, node.start)

        def told() -> None:
            more = len(self.seen.ends) - ended
            self._say(f"{node.name} was killed; {more} ends in the {down:.0f} s until its start")

        if len(self.brokers.nodes) > 1:
            self._at(at + down, told)

    def _stop_node(self) -> None:
        node = self.brokers.nodes[0]
        node.stop()
        self.seen.counts["brokers stopped"] += 1

        def again() -> None:
            if node.is_alive():
                self._at(self._now() + 0.2, again)
            else:
                node.start()

        again()

    def _take_source(self) -> None:
        away = self.source.with_name("away")
        self.source.rename(away)
        self.seen.counts["source away"] += 1
        self._at(self._now() + self.plan.fault_s, lambda: [away.rename(self.source)].clear())

    def _fill_disk(self) -> None:
        filler = self.out / ".filler"
        with open(filler, "wb", buffering=0) as file:
            for size in (1 << 20, 4_096):
                try:
                    while True:
                        file.write(bytes(size))
                except OSError:
                    pass
        self.seen.counts["disk full"] += 1
        self._at(self._now() + self.plan.fault_s, filler.unlink)

    def _send_junk(self) -> None:
        """Messages that are no jobs; a broker that is down takes them later."""
        try:
            channel = Broker(self.brokers.urls).channel()
            for junk in (*JUNK, ODD):
                channel.basic_publish("", JOBS, junk, pika.BasicProperties(delivery_mode=2))
        except Exception:
            self._at(self._now() + 1, self._send_junk)

    # ---- the end

    def _drain(self) -> None:
        """Waits until every job has an end, and faults are over."""
        until = self._now() + self.plan.drain_s
        wanted = {*self.jobs, "odd-file"}
        while self._now() < until and (not wanted <= set(self.seen.ends) or self._events):
            self._tick()

    def _look_at_queues(self) -> None:
        quiet = self._now() + 3
        while self._now() < quiet:
            self._tick()
        channel = Broker(self.brokers.urls).channel()
        for queue in _broker.queues():
            told = channel.queue_declare(queue, passive=True)
            self.seen.left[queue] = told.method.message_count
        self.seen.aside = [json.loads(line) for line in self.command("aside").splitlines()]

    def command(self, *words: str) -> str:
        """What razvolk-queue prints."""
        run = subprocess.run([*COMMAND, *words], env=self._environment, capture_output=True)
        self.seen.counts[f"{words[0]} ended by {run.returncode}"] += 1
        return run.stdout.decode()

    def send_again(self, most: float = 30) -> list[str]:
        """An operator sends again what was set aside. Returns the ids of jobs that have a second end."""
        ids = [told["id"] for told in self.seen.aside if "error" not in told]
        if not ids:
            return []
        self.command("aside", "--again", *ids)
        until = self._now() + most
        names = [self.out / Job(id, "-", again=1).record for id in ids]
        while self._now() < until and not all(name.exists() for name in names):
            self._tick()
        return [id for id, name in zip(ids, names) if name.exists()]

    def _stop(self) -> None:
        self.sent_again = self.send_again()
        slots, self.slots = self.slots, []
        for slot in slots:
            slot.process.terminate()
        for slot in slots:
            try:
                self.seen.exits.append(slot.process.wait(20))
            except subprocess.TimeoutExpired:
                self.seen.exits.append(-1)
        self._reader.send_signal(signal.SIGTERM)
        self._reader.wait(20)
        self.seen.reader = json.loads((self.folder / "seen.json").read_text())

    def end(self) -> None:
        """Ends every process, whatever the state."""
        for process in self._processes:
            if process.poll() is None:
                process.kill()
            process.wait()
        self.brokers.end()
