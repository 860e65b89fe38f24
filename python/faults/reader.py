"""reader.py FOLDER COUNTS: looks at an output folder all the time, as a caller may, until SIGTERM, and counts what is torn.

Every file that it sees must be whole, and every file that a record names must be there with the bytes that it tells of.
"""

from __future__ import annotations

import collections
import hashlib
import json
import os
import signal
import sys
import time
from pathlib import Path
from typing import Any

import razvolk

seen: "collections.Counter[str]" = collections.Counter()


def fault_of(path: Path, data: bytes) -> str:
    """What is wrong with a file, or nothing."""
    if path.suffix == ".json":
        return record_fault(path, data)
    if path.suffix == ".pgm":
        head = data.split(b"\n", 3)
        sides = [int(side) for side in head[1].split()] if len(head) == 4 else [0, 0]
        return "" if len(head) == 4 and len(head[3]) == 2 * sides[0] * sides[1] else "proof torn"
    if path.suffix == ".png":
        return "" if data.endswith(b"IEND\xaeB`\x82") else "picture torn"
    try:
        return "stored frame torn" if razvolk.find(data).missing_bytes else ""
    except razvolk.NoFrame:
        return "stored frame torn"


def record_fault(path: Path, data: bytes) -> str:
    try:
        record: dict[str, Any] = json.loads(data)
    except ValueError:
        return "record torn"
    for output in record.get("outputs", {}).values():
        try:
            made = (path.parent / output["name"]).read_bytes()
        except FileNotFoundError:
            return "record before output"
        if hashlib.sha256(made).hexdigest() != output["sha256"]:
            return "output isn't what its record tells"
    return ""


def look(folder: Path, known: dict[str, tuple[int, int]]) -> None:
    for entry in os.scandir(folder):
        if entry.name.startswith("."):
            continue
        try:
            state = entry.stat()
            key = (state.st_ino, state.st_mtime_ns)
            if known.get(entry.name) == key:
                continue
            data = Path(entry.path).read_bytes()
        except FileNotFoundError:
            seen["file gone"] += 1
            continue
        seen["looks"] += 1
        fault = fault_of(Path(entry.path), data)
        if fault:
            seen[fault] += 1
        else:
            known[entry.name] = key


def main() -> None:
    running = True

    def stop(*_: object) -> None:
        nonlocal running
        running = False

    signal.signal(signal.SIGTERM, stop)
    known: dict[str, tuple[int, int]] = {}
    while running:
        look(Path(sys.argv[1]), known)
        time.sleep(0.02)
    Path(sys.argv[2]).write_text(json.dumps(seen))


if __name__ == "__main__":
    main()
