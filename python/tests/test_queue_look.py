"""A worker's look at frames: what it tells and makes is the tool's, and depends on the job and the file alone."""

from __future__ import annotations

import io
import json
import os
import subprocess
from pathlib import Path
from typing import Any, Optional

import numpy as np
import pytest
import razvolk
from frames import Call, any_call, picture
from hypothesis import given, settings
from hypothesis import strategies as st
from PIL import Image
from razvolk.queue import OUTPUTS, Job
from razvolk.queue._look import Look, text
from razvolk.queue._picture import TINTS

TOOL = os.environ["RAZVOLK_TOOL"]
FRAMES = Path(os.environ["RAZVOLK_FRAMES"])
ALL = tuple(OUTPUTS)


def made(
    look: Look, data: bytes, want: tuple[str, ...] = ALL, fill: Optional[int] = None
) -> tuple[dict[str, Any], dict[str, bytes]]:
    """The record of a file, and the outputs' bytes."""
    record: dict[str, Any] = {}
    outputs = look.outputs(Job("a", "a.srw", want, fill), data, record)
    return record, {output.want: b"".join(output.parts) for output in outputs}


def told(path: Path, *words: object) -> dict[str, Any]:
    """What the tool tells of a file."""
    run = subprocess.run([TOOL, "--json", *map(str, words), str(path)], capture_output=True)
    assert run.returncode in (0, 1, 2, 3), run.stderr
    line: dict[str, Any] = json.loads(run.stdout)
    return line


@settings(max_examples=60)
@given(st.integers(0, 1 << 32), st.integers(2, 6), st.none() | st.integers(0, 65_535))
def test_nothing_of_an_earlier_frame_shows(seed: int, count: int, fill: Optional[int]) -> None:
    """Whatever a worker did before, its record and all files are a fresh worker's."""
    rng = np.random.default_rng(seed)
    used = Look()
    used._buffer[: 1 << 16] = rng.integers(0, 1 << 16, 1 << 16)
    for _ in range(count):
        data = any_call(rng).file(missing=int(rng.integers(0, 2)) * 9)
        want = tuple(name for name in ALL if rng.integers(2))
        record, files = made(used, data, want, fill)
        assert (record, files) == made(Look(), data, want, fill)
        assert set(files) == set(record["outputs"])
        assert set(files) | set(record["left_out"]) == set(want)


def test_the_words_are_the_tools(tmp_path: Path) -> None:
    rng = np.random.default_rng(48)
    look, statuses = Look(), set()
    files = sorted(FRAMES.rglob("*.srw"))
    for i in range(60):
        file = tmp_path / f"{i}.srw"
        file.write_bytes(any_call(rng).file(missing=int(rng.integers(0, 2)) * 9))
        files.append(file)
    for file in files:
        record, _ = made(look, file.read_bytes(), ())
        line = told(file)
        for extra in ("file", "header", "old_rows", "filler_rows", "runs"):
            line.pop(extra, None)
        record.pop("outputs")
        record.pop("left_out")
        assert record == line, file
        statuses.add(record["status"])
    assert statuses == {"clean", "hold_back", "incomplete", "refused"}


def test_unreadable_files_in_the_tools_words(tmp_path: Path) -> None:
    huge = Call(b"", None, 16_384, 16_384).file()
    for data in (b"", b"GIF89a", b"II*\0\x08\0\0\0", huge):
        file = tmp_path / "a.srw"
        file.write_bytes(data)
        record, files = made(Look(), data)
        line = told(file)
        assert record["status"] == line["status"] == "unreadable" and files == {}
        assert line["error"] == f"{file}: {record['error']}"


def test_files_are_the_tools(tmp_path: Path) -> None:
    for file in sorted(FRAMES.rglob("*.srw")):
        _, files = made(Look(), file.read_bytes())
        for want, words in (
            ("proof", ["--blank", "--pgm"]),
            ("v0", ["--blank=0", "--write-v0"]),
            ("v2", ["--to-v2"]),
        ):
            path = tmp_path / f"{want}{file.parent.name}{file.name}"
            told(file, *words, path)
            assert path.exists() == (want in files), (file, want)
            assert want not in files or path.read_bytes() == files[want], (file, want)


def test_a_picture_shows_marks_and_no_stranger() -> None:
    sitting, christening = (FRAMES / "large" / f"{name}.srw" for name in ("sitting", "christening"))
    look = Look()
    made(look, sitting.read_bytes())
    record, files = made(look, christening.read_bytes(), ("picture",))
    assert record["status"] == "hold_back"
    pixels = np.asarray(Image.open(io.BytesIO(files["picture"])))
    assert pixels.shape == (300, 480, 3)
    assert (pixels[:36] == TINTS[razvolk.OLD]).all() and len(np.unique(pixels[36:])) > 50


@pytest.mark.parametrize("orientation", [None, 1, 2, 3, 4, 5, 6, 7, 8])
@pytest.mark.parametrize("size", [(1, 1), (7, 5), (16, 12)])
def test_pictures_of_every_orientation(
    tmp_path: Path, orientation: Optional[int], size: tuple[int, int]
) -> None:
    samples = picture(np.random.default_rng(1), *size)
    razvolk.imwrite(tmp_path / "a.srw", samples, colours="RGGB", orientation=orientation)
    _, files = made(Look(), (tmp_path / "a.srw").read_bytes(), ("picture",))
    across, down = (size[0] + 1) // 2, (size[1] + 1) // 2
    turned = (orientation or 1) >= 5
    shown = Image.open(io.BytesIO(files["picture"]))
    assert shown.size == ((down, across) if turned else (across, down))


def test_orientations_are_tiffs() -> None:
    """The corner that an orientation names as the top left is there in the picture, as Pillow itself turns it."""
    from PIL import ImageOps
    from razvolk.queue._picture import _TURNS

    plain = Image.fromarray(np.arange(6, dtype=np.uint8).reshape(2, 3))
    for orientation, turn in _TURNS.items():
        tagged = io.BytesIO()
        exif = Image.Exif()
        exif[0x0112] = orientation
        plain.save(tagged, "PNG", exif=exif)
        expected = ImageOps.exif_transpose(Image.open(tagged))
        ours = plain.transpose(getattr(Image.Transpose, turn))
        assert np.array_equal(np.asarray(ours), np.asarray(expected)), orientation


def test_a_frame_of_no_samples() -> None:
    record, files = made(Look(), Call(b"", [], 0, 0).file())
    assert record["status"] in ("clean", "refused") and "proof" in record["left_out"]
    assert "picture" not in files


def test_equal_records_are_equal_bytes() -> None:
    assert text({"b": 1, "a": "ö"}) == text({"a": "ö", "b": 1}) == b'{"a": "\\u00f6", "b": 1}\n'
