"""Messages: every one is a job or is refused, and no job can name a file outside its folder."""

from __future__ import annotations

import json
import os
from typing import Any

import pytest
from hypothesis import given
from hypothesis import strategies as st
from razvolk.queue import OUTPUTS, Job, NotAJob
from razvolk.queue._job import id_for, is_id, parse

IDS = st.text("abcXYZ019_-", min_size=1, max_size=80)
NAMES = st.text(st.characters(blacklist_categories=("Cs",), blacklist_characters="/\0"), min_size=1)
FILES = st.lists(NAMES.filter(lambda name: name not in (".", "..")), min_size=1, max_size=4)
JOBS = st.builds(
    Job,
    IDS,
    FILES.map("/".join).filter(lambda file: len(file) <= 1_000),
    st.lists(st.sampled_from(list(OUTPUTS)), unique=True).map(tuple),
    st.none() | st.integers(0, 65_535),
    st.integers(0, 1_000),
)
LEAVES = st.none() | st.booleans() | st.integers() | st.floats() | st.text() | st.lists(st.text())


@given(JOBS)
def test_a_job_comes_back(job: Job) -> None:
    assert parse(job.message()) == job
    # Names of files below a folder.
    for name in (job.record, *(job.id + end for end in OUTPUTS.values())):
        assert os.path.basename(name) == name and not name.startswith(".")
    assert os.path.normpath(os.path.join("/source", job.file)).startswith("/source/")


@given(st.binary())
def test_bytes_are_no_job(message: bytes) -> None:
    with pytest.raises(NotAJob):
        parse(message)


@given(st.dictionaries(st.sampled_from(["id", "file", "want", "fill", "again", "x"]), LEAVES))
def test_odd_fields(fields: dict[str, Any]) -> None:
    try:
        job = parse(json.dumps(fields).encode())
    except NotAJob as fault:
        assert fault.id is None or (is_id(fault.id) and fault.id == fields["id"])
    else:
        assert is_id(job.id) and parse(job.message()) == job


@pytest.mark.parametrize(
    "id", ["", ".", "..", "a/b", "a.b", "a b", "a\n", "ä", "a" * 81, "\0", None, 3, True, ["a"]]
)
def test_ids_that_name_no_file(id: Any) -> None:
    assert not is_id(id)
    with pytest.raises(NotAJob):
        Job(id, "x.srw")


@pytest.mark.parametrize(
    "file", ["", "/etc/passwd", "../x", "a/../b", "a//b", "a/", "./a", "a\0", "\ud800", "a" * 1_001]
)
def test_files_that_are_not_below_a_folder(file: str) -> None:
    with pytest.raises(NotAJob) as fault:
        Job("a", file)
    assert fault.value.id == "a"


@pytest.mark.parametrize("want", [("proof", "proof"), ("tiff",), "proof", (1,), None])
def test_wants_that_nobody_makes(want: Any) -> None:
    with pytest.raises(NotAJob):
        Job("a", "x.srw", want)


def test_long_and_deep_messages() -> None:
    for message in (b"[" * 9_999, b'{"id":' * 1_500, b" " * 20_000):
        with pytest.raises(NotAJob):
            parse(message)


@given(FILES.map("/".join), st.sets(st.sampled_from(list(OUTPUTS))))
def test_an_id_that_is_made(file: str, want: set[str]) -> None:
    made = id_for(file, tuple(want), None)
    assert is_id(made) and made == id_for(file, tuple(sorted(want)), None)
    assert made != id_for(file, tuple(want), 0)
