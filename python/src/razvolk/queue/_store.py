"""Files of the output folder: each appears whole or not at all, and a record exactly once.

A folder counts as there if it holds the file `.razvolk`, so that the empty folder in which nothing is mounted isn't taken for it.
"""

from __future__ import annotations

import contextlib
import errno
import fcntl
import os
import re
import socket
import stat
from collections.abc import Iterable, Iterator
from typing import Optional, Union

MARKER = ".razvolk"
LONGEST = 1 << 28
"""The longest source file that is read, in bytes."""

Part = Union[bytes, memoryview]

# What is wrong with the host and not with a file.
_HOST = {
    errno.EIO,
    errno.EMFILE,
    errno.ENFILE,
    errno.ENOMEM,
    errno.ESTALE,
    errno.ETIMEDOUT,
    errno.EAGAIN,
    errno.ENOTCONN,
    errno.EHOSTDOWN,
    errno.EHOSTUNREACH,
}


class Later(Exception):
    """Nothing is wrong with the job: the host can't do it at present."""


class Unreadable(Exception):
    """The source file can't be read, and why."""


@contextlib.contextmanager
def _or_later(what: str) -> Iterator[None]:
    try:
        yield
    except OSError as fault:
        raise Later(f"{what}: {fault.strerror}") from fault


@contextlib.contextmanager
def _there(folder: str, what: str) -> Iterator[int]:
    """The folder, opened, if it is there."""
    with _or_later(f"{what} {folder}"):
        at = os.open(folder, os.O_RDONLY | os.O_DIRECTORY | os.O_CLOEXEC)
    try:
        with _or_later(f"{what} {folder} has no {MARKER}"):
            os.stat(MARKER, dir_fd=at)
        yield at
    finally:
        os.close(at)


def source(folder: str, name: str) -> bytes:
    """The bytes of a file below the source folder. To open a pipe doesn't wait for its writer."""
    with _there(folder, "source folder") as at:
        try:
            flags = os.O_RDONLY | os.O_CLOEXEC | os.O_NONBLOCK | os.O_NOCTTY
            with open(os.open(name, flags, dir_fd=at), "rb") as file:
                if not stat.S_ISREG(os.fstat(file.fileno()).st_mode):
                    raise Unreadable("not a regular file")
                data = file.read(LONGEST + 1)
        except OSError as fault:
            if fault.errno in _HOST:
                raise Later(f"source file: {fault.strerror}") from fault
            raise Unreadable(fault.strerror) from fault
    if len(data) > LONGEST:
        raise Unreadable(f"longer than {LONGEST} bytes")
    return data


class Store:
    """The output folder, as one worker writes to it. Its tag, of host and slot, names its unfinished files."""

    def __init__(self, folder: str, slot: str) -> None:
        host = re.sub(r"[^A-Za-z0-9-]", "-", socket.gethostname())
        self.folder, self.tag = folder, f"{host}_{slot}"
        self._lock: Optional[int] = None

    def open(self) -> None:
        """Takes the slot, once, and removes what its killed forerunner left unfinished. Raises `Later` if the folder is away."""
        if self._lock is not None:
            return
        with _there(self.folder, "output folder"), _or_later("output folder"):
            lock = os.open(
                self._path(f".{self.tag}.lock"), os.O_RDWR | os.O_CREAT | os.O_CLOEXEC, 0o644
            )
            try:
                fcntl.flock(lock, fcntl.LOCK_EX | fcntl.LOCK_NB)
                for name in os.listdir(self.folder):
                    if name.startswith(".") and name.endswith(f".{self.tag}.part"):
                        os.unlink(self._path(name))
            except BlockingIOError:
                os.close(lock)
                raise SystemExit(f"razvolk-queue: slot {self.tag} is another worker's") from None
            except OSError:
                os.close(lock)
                raise
        self._lock = lock

    def put(self, name: str, parts: Iterable[Part]) -> None:
        """Writes an output. Who writes it writes the same bytes, so that the last may win."""
        with self._staged(name, parts) as part:
            os.rename(part, self._path(name))
            self._sync()

    def put_once(self, name: str, data: bytes) -> bytes:
        """Writes a record, unless there is one: the first holds. Returns the one that holds."""
        with self._staged(name, [data]) as part:
            with contextlib.suppress(FileExistsError):
                os.link(part, self._path(name))
            os.unlink(part)
            self._sync()
        held = self.get(name)
        if held is None:
            raise Later(f"{name} is gone")
        return held

    def get(self, name: str) -> Optional[bytes]:
        """The bytes of a file, or None if there is none."""
        with _there(self.folder, "output folder"), _or_later(name):
            try:
                with open(self._path(name), "rb") as file:
                    return file.read()
            except FileNotFoundError:
                return None

    def _path(self, name: str) -> str:
        return os.path.join(self.folder, name)

    @contextlib.contextmanager
    def _staged(self, name: str, parts: Iterable[Part]) -> Iterator[str]:
        """A file beside the one that is meant, whole and on the disk. It is removed if what follows fails."""
        path = self._path(f".{name}.{self.tag}.part")
        with _there(self.folder, "output folder"), _or_later(name):
            try:
                with open(path, "wb", buffering=0) as file:
                    for part in parts:
                        rest = memoryview(part)
                        while len(rest) > 0:
                            rest = rest[file.write(rest) or 0 :]
                    os.fsync(file.fileno())
                yield path
            except OSError:
                with contextlib.suppress(OSError):
                    os.unlink(path)
                raise

    def _sync(self) -> None:
        """Has the folder's names on the disk."""
        at = os.open(self.folder, os.O_RDONLY | os.O_DIRECTORY | os.O_CLOEXEC)
        try:
            os.fsync(at)
        finally:
            os.close(at)
