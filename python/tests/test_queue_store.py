"""Files: whole or not at all, a record once, and what the host can't do at present is later."""

from __future__ import annotations

import errno
import os
import threading
from pathlib import Path
from typing import Any, Callable

import pytest
from razvolk.queue import _store
from razvolk.queue._store import Later, Store, Unreadable


@pytest.fixture
def out(tmp_path: Path) -> Path:
    folder = tmp_path / "out"
    folder.mkdir()
    (folder / ".razvolk").touch()
    return folder


def names(folder: Path) -> list[str]:
    return sorted(path.name for path in folder.iterdir() if not path.name.startswith("."))


def parts(folder: Path) -> list[str]:
    return [path.name for path in folder.iterdir() if path.name.endswith(".part")]


def test_an_output_is_replaced_by_the_same(out: Path) -> None:
    store = Store(str(out), "1")
    for _ in range(2):
        store.put("a.pgm", [b"one", memoryview(b"two")])
    assert (out / "a.pgm").read_bytes() == b"onetwo" == store.get("a.pgm")
    assert names(out) == ["a.pgm"] and parts(out) == []


def test_the_first_record_holds(out: Path) -> None:
    held: list[bytes] = []

    def write(number: int) -> None:
        held.append(Store(str(out), str(number)).put_once("a.json", b"%d" % number))

    threads = [threading.Thread(target=write, args=(number,)) for number in range(16)]
    for thread in threads:
        thread.start()
    for thread in threads:
        thread.join()
    assert len(held) == 16 and set(held) == {(out / "a.json").read_bytes()}
    assert parts(out) == []


@pytest.mark.parametrize("call", ["fsync", "rename", "link"])
def test_a_full_disk_is_later(out: Path, monkeypatch: pytest.MonkeyPatch, call: str) -> None:
    class Full:
        def __getattr__(self, name: str) -> Any:
            return getattr(os, name)

    def full(*_: object) -> None:
        raise OSError(errno.ENOSPC, os.strerror(errno.ENOSPC))

    system = Full()
    setattr(system, call, full)
    monkeypatch.setattr(_store, "os", system)
    store = Store(str(out), "1")
    with pytest.raises(Later, match="No space left"):
        store.put("a.pgm", [b"x"])
        store.put_once("a.json", b"x")
    assert "a.json" not in names(out) and parts(out) == []


def test_a_folder_without_its_marker_is_away(out: Path) -> None:
    store = Store(str(out), "1")
    (out / ".razvolk").unlink()
    calls: list[Callable[[], object]] = [
        lambda: store.put("a", [b""]),
        lambda: store.put_once("a", b""),
        lambda: store.get("a"),
        store.open,
        lambda: _store.source(str(out), "a"),
        lambda: _store.source(str(out / "none"), "a"),
    ]
    for call in calls:
        with pytest.raises(Later):
            call()
    assert names(out) == []


def test_a_slot_is_taken_once_and_cleaned(out: Path) -> None:
    first = Store(str(out), "1")
    mine, other = out / f".a.pgm.{first.tag}.part", out / f".a.pgm.{first.tag}0.part"
    mine.touch()
    other.touch()
    first.open()
    first.open()
    assert not mine.exists() and other.exists()
    with pytest.raises(SystemExit, match="another worker's"):
        Store(str(out), "1").open()


def test_sources_that_are_no_files(out: Path) -> None:
    os.mkfifo(out / "pipe")
    (out / "folder").mkdir()
    os.symlink("loop", out / "loop")
    os.symlink("/dev/zero", out / "zero")
    (out / "frame").write_bytes(b"frame")
    for name in ("pipe", "folder", "loop", "zero", "none", "frame/none", "n" * 300):
        with pytest.raises(Unreadable):
            _store.source(str(out), name)
    assert _store.source(str(out), "frame") == b"frame"


def test_a_source_that_is_too_long(out: Path, monkeypatch: pytest.MonkeyPatch) -> None:
    monkeypatch.setattr(_store, "LONGEST", 4)
    (out / "frame").write_bytes(b"frame")
    with pytest.raises(Unreadable, match="longer than 4 bytes"):
        _store.source(str(out), "frame")


def test_a_host_that_fails_is_later(out: Path, monkeypatch: pytest.MonkeyPatch) -> None:
    class Failing:
        def __getattr__(self, name: str) -> Any:
            return getattr(os, name)

        def fstat(self, _: int) -> None:
            raise OSError(errno.EIO, "Input/output error")

    (out / "frame").touch()
    monkeypatch.setattr(_store, "os", Failing())
    with pytest.raises(Later, match="Input/output"):
        _store.source(str(out), "frame")
