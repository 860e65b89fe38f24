"""faults.py FOLDER short|long|cluster|controls|CONTROL...: runs the queue under faults, and prints what was wrong.

SEED in the environment picks files, jobs and moments (1). The exit status is 0 if nothing was wrong, or for controls if the
harness found each of them; else 1.
"""

from __future__ import annotations

import collections
import os
import shutil
import signal
import subprocess
import sys
import time
from dataclasses import replace
from pathlib import Path

from judge import judge, poison_tries
from run import Plan, Run
from worker import CONTROLS

PLANS = {
    "short": Plan(jobs=200, rate=8, kills=20, poison=1, broker_kills=(0.5,)),
    "long": Plan(
        jobs=3_000,
        rate=18,
        kills=150,
        poison=6,
        broker_kills=(0.2, 0.45, 0.65),
        broker_stops=(0.3,),
        source_away=(0.1, 0.55),
        disk_full=(0.15, 0.4),
        drain_s=180,
    ),
    "one": Plan(jobs=120, rate=6, kills=8, poison=1, workers=1, broker_kills=(0.5,)),
    "four": Plan(jobs=400, rate=12, kills=30, workers=4, broker_kills=(0.3,)),
    "cluster": Plan(
        jobs=600,
        rate=10,
        kills=25,
        poison=2,
        workers=3,
        nodes=3,
        broker_kills=(0.2, 0.5),
        drain_s=120,
    ),
}
_CONTROL = Plan(jobs=240, rate=16, kills=20, poison=1, drain_s=15)
CONTROL_PLANS = {
    "acknowledge first": _CONTROL,
    "classic queue": _CONTROL,
    "nack for later": replace(_CONTROL, kills=0, source_away=(0.3,)),
    "prefetch 10": replace(_CONTROL, kills=60, faults_until=1.0, sleeps=(0.2, 0.5)),
    "write in place": replace(_CONTROL, kills=0),
    "no blanking": replace(_CONTROL, kills=0),
}
EXPECTED = {
    "acknowledge first": "jobs without an end",
    "classic queue": "jobs without an end",
    "nack for later": "innocents set aside",
    "prefetch 10": "innocents set aside",
    "write in place": "seen: ",
    "no blanking": " that differ from a fresh worker's",
}

_began = time.monotonic()


def say(text: str) -> None:
    print(f"{time.monotonic() - _began:6.1f} s  {text}", flush=True)


def one(name: str, plan: Plan, folder: Path) -> collections.Counter[str]:
    """A run and its faults. The folder is removed with it."""
    shutil.rmtree(folder, ignore_errors=True)
    out = folder / "out"
    out.mkdir(parents=True)
    if plan.disk_full:
        # The caller has a mount namespace of its own, so that this is gone with it.
        size = ["mount", "-t", "tmpfs", "-o", "size=600m", "tmpfs", str(out)]
        subprocess.run(size, check=True)
    say(f"{name}: {plan.jobs} jobs, {plan.workers} workers, {plan.nodes} node(s), seed {plan.seed}")
    run = Run(plan, folder, say)
    try:
        run.go()
        faults = judge(run)
    finally:
        run.end()
        if plan.disk_full:
            subprocess.run(["umount", "--lazy", str(out)], check=True)
    tell(run, faults)
    shutil.rmtree(folder)
    return faults


def tell(run: Run, faults: collections.Counter[str]) -> None:
    seen = run.seen
    say(", ".join(f"{count} {name}" for name, count in sorted(seen.counts.items())))
    took = sorted(seen.took) or [0.0]
    median, late = took[len(took) // 2], took[len(took) * 99 // 100]
    life = max(seen.memory.values(), key=len)
    say(
        f"{len(seen.ends)} ends, {seen.again} told again; median {median:.2f} s, 99th percentile {late:.2f} s; "
        f"{seen.reader.get('looks', 0)} looks at files; {max(max(m) for m in seen.memory.values()) >> 20} MB at most, "
        f"longest life {max(life[: len(life) // 3]) >> 20} then {max(life) >> 20} MB"
    )
    found = ", ".join(f"{count} {name}" for name, count in sorted(faults.items()) if count)
    say(f"times that poison was begun: {poison_tries(run)}")
    say(f"faults: {found or 'none'}")


def main() -> int:
    folder, *words = sys.argv[1:]
    signal.signal(signal.SIGTERM, lambda *_: sys.exit(1))
    wrong = 0
    names = [name for word in words for name in (CONTROLS if word == "controls" else [word])]
    for name in names:
        control = name in CONTROL_PLANS
        plan = replace(CONTROL_PLANS[name], control=name) if control else PLANS[name]
        plan = replace(plan, seed=int(os.environ.get("SEED", "1")))
        faults = one(name, plan, Path(folder) / name.replace(" ", "-"))
        found = [
            fault for fault, count in faults.items() if count and EXPECTED.get(name, "") in fault
        ]
        good = bool(found) == control
        wrong += not good
        say(
            f"{name}: {'passed' if good else 'FAILED'}"
            + (f", found: {found[0]}" if control and found else "")
        )
    say(f"{len(names) - wrong} runs passed, {wrong} failed")
    return int(wrong > 0)


if __name__ == "__main__":
    sys.exit(main())
