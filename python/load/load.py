"""load.py measure FOLDER FILE [ROW...]: measures the queue under load. A row is a size and a number of workers, `20MP-1`; it
replaces the row that the file has.

load.py tell FILE: prints the tables of docs/SCALE.md from the file's rows, and holds the simulation to them. The exit status is 1
if it doesn't hold.
"""

from __future__ import annotations

import json
import signal
import sys
from dataclasses import asdict
from pathlib import Path

sys.path.append(str(Path(__file__).resolve().parent.parent / "faults"))

import psutil  # noqa: E402
from measure import PARTS, SIZES, Bench, Row, arrivals, percentile, rate_of  # noqa: E402
from simulate import BUSIEST_HOUR, Machine, Site, workers_for  # noqa: E402

ROWS = [f"{size}-{workers}" for size in SIZES for workers in (1, 2)]
LOADS = ("half load, ms", "full load, ms")
SHARD = 10_000_000
"""The most frames a day that one group of brokers and workers is simulated with."""
SLACK = 0.15
HELD = {"tiny-1": 1, "tiny-2": 0, "20MP-1": 3, "20MP-2": 3}
"""How many figures of a row the simulation is held to, of frames a second and the medians at half and at full load: each must lie
between those of service times that are `SLACK` shorter and longer. Tiny frames wait longer for a broker that serves others, too,
which the simulation doesn't know (docs/SCALE.md)."""


def measure(folder: str, file: Path, names: list[str]) -> None:
    """Measures rows, and has them in the file."""
    if not set(names) <= set(ROWS):
        sys.exit(f"rows are {', '.join(ROWS)}")
    rows = json.loads(file.read_text()) if file.exists() else {}
    bench = Bench(Path(folder))
    try:
        bench.start()
        for name in names or ROWS:
            size, workers = name.split("-")
            rows[name] = asdict(bench.row(SIZES[size], int(workers)))
            rows["source bytes"] = bench.file(SIZES["20MP"]).stat().st_size
            file.write_text(json.dumps(rows))
    finally:
        bench.end()


def row(*cells: object) -> None:
    print("| " + " | ".join(str(cell) for cell in cells) + " |", flush=True)


def head(title: str, *names: str) -> None:
    print(f"\n{title}:\n")
    row(*names)
    row(*["---"] * len(names))


def ms(seconds: float) -> str:
    return f"{seconds * 1000:,.0f}" if seconds >= 0.02 else f"{seconds * 1000:.1f}"


def both(late: list[float]) -> str:
    return f"{ms(percentile(late, 0.5))} / {ms(percentile(late, 0.99))}"


def tell_measured(rows: dict[str, Row]) -> None:
    names = ("frames", "workers", "without a queue", "with the queue", *LOADS)
    head("Frames a second and latency (median / 99th percentile)", *names)
    for name, told in rows.items():
        cells = (f"{told.alone:,.1f}", f"{told.rate:,.1f}", *map(both, told.late))
        row(*name.split("-"), *cells)


def tell_costs(rows: dict[str, Row]) -> None:
    parts = ("worker", "broker", "who takes ends", "to submit, caller", "to submit, broker")
    title = "Milliseconds of processor for a job, and how long its worker has none"
    head(title, "frames", "workers", *parts, "has none")
    for name, told in rows.items():
        size, workers = name.split("-")
        work = (told.worker_cpu, told.broker_cpu, told.ends_cpu)
        waits = max(0.0, int(workers) / told.rate - told.worker_cpu)
        costs = (*work, told.submit_cpu, told.submit_broker_cpu, waits)
        row(size, workers, *(f"{1000 * cost:,.2f}" for cost in costs))


def simulated(rows: dict[str, Row], name: str, slower: float) -> tuple[float, list[list[float]]]:
    """Frames a second and latencies of a row, by the costs of one worker."""
    key, workers = name.split("-")
    size, words = SIZES[key], (rows[f"{key}-1"], int(workers), psutil.cpu_count(), slower)
    dues = [arrivals(part * rows[name].rate, size.offered) for part in PARTS]
    rate = rate_of(Machine(*words).saturated(size.saturated))
    return rate, [Machine(*words).latencies(due) for due in dues]


def figures(rate: float, late: list[list[float]]) -> list[float]:
    return [rate, *(percentile(values, 0.5) for values in late)]


def compared(rows: dict[str, Row]) -> list[str]:
    """Prints what was measured, and beside it the simulation of the same machine. Returns where it doesn't hold."""
    kinds = ("a second, m", "s", "half load, m", "s", "full load, m", "s")
    title = "Frames a second, and latency in ms (median / 99th percentile), measured (m) and simulated (s)"
    head(title, "frames", "workers", "without a queue", *kinds)
    wrong = []
    for name, told in rows.items():
        rate, late = simulated(rows, name, 1)
        cells = [both(values) for pair in zip(told.late, late) for values in pair]
        rates = [f"{value:,.1f}" for value in (told.alone, told.rate, rate)]
        row(*name.split("-"), *rates, *cells)
        ends = [figures(*simulated(rows, name, 1 + slack)) for slack in (-SLACK, SLACK)]
        measured = figures(told.rate, told.late)[: HELD[name]]
        for cell, value, *between in zip(("a second", *LOADS), measured, *ends):
            if not is_between(value, *between):
                wrong.append(f"{name}, {cell}: {value:.4g} is not between {between}")
    return wrong


def is_between(value: float, one: float, other: float) -> bool:
    return min(one, other) <= value <= max(one, other)


def tell_sites(service: list[float], broker_cpu: float, job_bytes: int) -> None:
    """Prints how many workers and brokers hold what sites ask for."""
    names = ("frames", "a second", "workers", "nodes", "99th percentile, s")
    title = f"The busiest hour ({BUSIEST_HOUR:.0%} of a day's frames), 20 MP, simulated"
    head(title, *names, "broker's cores", "Gbit/s")
    for name, frames in (
        ("11,000 a week", 11_000 / 5),
        ("1,000,000 a day", 1e6),
        ("100,000,000 a day", 1e8),
    ):
        groups = max(1, round(frames / SHARD))
        workers, late = workers_for(frames / groups, service)
        rate = Site(frames, 1, service).rate
        cells = [f"{rate:,.2f}", f"{workers * groups:,}", groups * 3, f"{late:.2f}"]
        row(name, *cells, f"{rate * broker_cpu:,.2f}", f"{rate * job_bytes * 8 / 1e9:,.1f}")


def tell(file: Path) -> int:
    told = json.loads(file.read_text())
    rows = {name: Row(**told[name]) for name in ROWS if name in told}
    if len(rows) < len(ROWS):
        tell_measured(rows)
        tell_costs(rows)
        print(f"\nthe simulation needs all of {', '.join(ROWS)}")
        return 0
    wrong = compared(rows)
    told_of = f"{sum(HELD.values())} figures, service times {SLACK:.0%} shorter and longer"
    verdict = f"DOESN'T HOLD: {'; '.join(wrong)}" if wrong else "holds"
    print(f"\nThe simulation {verdict} ({told_of}).")
    tell_costs(rows)
    one, frame = rows["20MP-1"], SIZES["20MP"]
    broker_cpu = one.broker_cpu + one.submit_broker_cpu
    tell_sites(one.service, broker_cpu, told["source bytes"] + 2 * frame.width * frame.height)
    return int(bool(wrong))


def main() -> int:
    signal.signal(signal.SIGTERM, lambda *_: sys.exit(1))
    command, *words = sys.argv[1:]
    if command == "tell":
        return tell(Path(words[0]))
    measure(words[0], Path(words[1]), words[2:])
    return 0


if __name__ == "__main__":
    sys.exit(main())
