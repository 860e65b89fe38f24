"""Shared by the tests of the archive: the names that the header declares, commands, and planted faults."""

import os
import re
import shutil
import subprocess
import sys
from collections.abc import Callable
from pathlib import Path

TOP = Path(__file__).resolve().parent.parent
ARCHIVE = TOP / "target/staticlib/librazvolk.a"
HEADER = TOP / "include/razvolk.h"

# The functions of the C library that the archive may call.
FROM_C = {"memset", "memcpy", "memmove"}


class Fault(Exception):
    """Something that must hold doesn't."""


def need(*programs: str) -> None:
    """Leaves the test out, by status 77, where the archive or one of these programs is missing."""
    missing = [name for name in programs if shutil.which(name) is None]
    if missing or not ARCHIVE.exists():
        print(f"left out: {', '.join(missing) + ' not installed' if missing else f'no {ARCHIVE.relative_to(TOP)}'}")
        sys.exit(77)


def run(*words: object) -> str:
    """Returns what a command prints; a command that fails is a fault."""
    done = subprocess.run([str(word) for word in words], capture_output=True, text=True, errors="replace")
    if done.returncode != 0:
        raise Fault(f"{words[0]} ended with status {done.returncode}:\n{done.stdout}{done.stderr}")
    return done.stdout


def copied_crates(folder: Path) -> None:
    """Copies the crates into a folder, without what rt keeps of them."""
    shutil.copytree(TOP / "crates", folder / "crates", ignore=lambda at, _: ["out"] if Path(at).parent == TOP / "crates" else [])
    shutil.copy(TOP / "crates.txt", folder)


def compiler() -> list[str]:
    return os.environ.get("CC", "cc").split()


def declared(header: Path = HEADER) -> list[str]:
    """Returns the names of the functions that the header declares."""
    text = re.sub(r"/\*.*?\*/", "", header.read_text(), flags=re.S)
    return re.findall(r"\b(razvolk_\w+)\s*\(", re.sub(r"^\s*#.*(\\\n.*)*", "", text, flags=re.M))


def must_fail(what: str, because: str, check: Callable[..., object], *words: object) -> None:
    """A planted fault: the check must find it, and for this reason."""
    try:
        check(*words)
    except Fault as fault:
        if because not in str(fault):
            raise Fault(f"planted: {what}: found for another reason: {fault}") from fault
        print(f"  planted: {what}: found: {str(fault).splitlines()[0]}")
        return
    raise Fault(f"planted, and not found: {what}")


def judged(main: Callable[[], None]) -> None:
    """Runs a test: status 1 and its message if it finds a fault."""
    try:
        main()
    except Fault as fault:
        print(f"FAILED: {fault}")
        sys.exit(1)
