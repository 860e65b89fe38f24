"""Random frames in a camera's files: what `imread` tells is what the command line tool tells, and its samples are the same."""

from __future__ import annotations

import json
import os
import subprocess
from pathlib import Path
from typing import TYPE_CHECKING, Any, Optional

import numpy as np
import razvolk
from frames import any_call
from numpy.testing import assert_array_equal

if TYPE_CHECKING:
    from numpy.typing import NDArray

TOOL = os.environ["RAZVOLK_TOOL"]
FRAMES = Path(os.environ["RAZVOLK_FRAMES"])
FILES = 400


def told(*words: object) -> dict[str, Any]:
    """What the tool tells of each file, by the file's name."""
    run = subprocess.run([TOOL, "--json", *map(str, words)], capture_output=True, check=False)
    assert run.returncode in (0, 1, 2, 3), run.stderr
    lines = [json.loads(line) for line in run.stdout.splitlines()]
    return {Path(line["file"]).name: line for line in lines}


def pgm(path: Path) -> NDArray[np.uint16]:
    """The samples of a picture that the tool wrote."""
    kind, size, most, samples = path.read_bytes().split(b"\n", 3)
    width, height = map(int, size.split())
    assert kind == b"P5" and int(most) > 255
    return np.frombuffer(samples, ">u2").astype(np.uint16).reshape(height, width)


def hold(
    path: Path, line: dict[str, Any], out: Optional[NDArray[np.uint16]] = None
) -> Optional[razvolk.Frame]:
    """Holds `imread` to what the tool told of a file; returns the frame if it is done."""
    refusal = None
    try:
        frame: Optional[razvolk.Frame] = razvolk.imread(path, out)
    except razvolk.Refusal as caught:
        refusal, frame = caught, caught.frame
    coded = razvolk.find(path.read_bytes())
    assert (f"V{coded.version}", coded.width, coded.height) == (
        line["version"],
        line["width"],
        line["height"],
    )
    assert (coded.bits, coded.stream.size) == (line["bits"], line["stream_bytes"])
    assert coded.missing_bytes == line["missing_bytes"]
    answer = (refusal.number, refusal.row) if refusal else (0, 0)
    assert answer == (line["answer"], line["row"])
    assert (frame is None) == ("samples" not in line)
    if frame is not None:
        assert (
            frame.missing_words == line["missing_words"]
            and frame.missing_bytes == line["missing_bytes"]
        )
        assert (frame.samples.size, frame.old, frame.missing) == (
            line["samples"],
            line["old"],
            line["filler"],
        )
        assert frame.runs.tolist() == line["runs"]
        assert not (frame.clean and line["runs"])
        if "error" not in line:
            # Of what is refused, the frame tells only of what was decoded.
            assert line.get("clean", frame.clean) == frame.clean or refusal is not None
    return None if refusal else frame


def test_random_frames(tmp_path: Path) -> None:
    rng = np.random.default_rng(47)
    files, pictures = tmp_path / "files", tmp_path / "pictures"
    files.mkdir()
    pictures.mkdir()
    for i in range(FILES):
        call = any_call(rng)
        file = call.file(missing=int(rng.integers(0, 3)) * 9)
        (files / f"{i:04}.srw").write_bytes(file)
    lines = told("--pgm", pictures, files)
    assert len(lines) == FILES
    done = clean = refused = 0
    for name, line in sorted(lines.items()):
        # A frame of no samples makes no picture.
        assert "error" not in line or line["samples"] == 0, line
        frame = hold(files / name, line)
        if frame is None:
            refused += 1
            continue
        done += 1
        clean += frame.clean
        if frame.samples.size > 0:
            assert_array_equal(frame.samples, pgm(pictures / name.replace(".srw", ".pgm")))
    assert min(done - clean, clean, refused) > 20, (done, clean, refused)


def test_a_frame_over_another(tmp_path: Path) -> None:
    for name in ("christening.srw", "corner.srw", "upload.srw"):
        picture = tmp_path / f"{name}.pgm"
        line = told("--over", FRAMES / "sitting.srw", FRAMES / name, "--pgm", picture)[name]
        out = np.zeros(64_000, np.uint16)
        razvolk.imread(FRAMES / "sitting.srw", out)
        frame = hold(FRAMES / name, line, out)
        assert frame is not None
        assert_array_equal(frame.samples, pgm(picture))
        blanked = tmp_path / f"{name}-blanked.pgm"
        for fill in (None, 6_000):
            words = ["--blank"] if fill is None else ["--blank", str(fill)]
            told(
                "--over", FRAMES / "sitting.srw", FRAMES / name, *words, "--force", "--pgm", blanked
            )
            again = np.zeros(64_000, np.uint16)
            razvolk.imread(FRAMES / "sitting.srw", again)
            frame = razvolk.imread(FRAMES / name, again)
            razvolk.blank(frame.samples, frame.marks, fill)
            assert_array_equal(frame.samples, pgm(blanked))


def test_all_frames_that_are_made_for_looking() -> None:
    lines = told(FRAMES)
    assert len(lines) >= 7
    for name, line in lines.items():
        hold(FRAMES / name, line)
