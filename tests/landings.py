#!/usr/bin/env python3
"""What the check of all crates costs before and after each landing of a request. `rt` in the path must be the version of the
toolchain that these trees were written for.

    tests/landings.py measure [--ci] FILE    proves each landing's tree and the tree before it, from nothing
    tests/landings.py draw FILE PICTURE      draws the curve of FILE, as PICTURE's ending says (python3-matplotlib)

`measure` appends to FILE, tree by tree, so that a run that was broken off goes on where it stopped; a tree that FILE has is not
proved again. Its figures mean something on a machine that does nothing else: some five minutes a tree. With --ci it runs
`rt ci` on each landing, too, which also has the wrong edits of that tree refused. FILE has a line for each tree, with tabs:

    tree COMMIT CLOCK PROCESSOR CRATES PROOF-LINES OUTCOME    seconds of `rt check`; lines of specs/ and proofs/
    crate COMMIT NAME CLOCK                                   a crate's own seconds, two crates side by side
    ci COMMIT CLOCK LAST-LINE                                 seconds of `rt ci`, and what it said last
"""

import argparse
import os
import re
import resource
import shutil
import subprocess
import sys
import tempfile
import time
from dataclasses import dataclass
from pathlib import Path

ROOT = Path(__file__).resolve().parent.parent
# The merge that landed each request, in the order in which they landed.
LANDINGS = {
    "03": "e440609",
    "08": "e2ededd",
    "07": "9f8da96",
    "01": "54bfe33",
    "02": "4c44a2b",
    "05": "be63896",
    "04": "337da3a",
    "06": "4073485",
    "09": "400cb9b",
    "11": "c114893",
    "10": "b84eb56",
    "14": "cdfb66d",
    "12": "97dc105",
    "13": "38988a9",
}
PROVED = re.compile(r"^rt: (\w+) proved \((\d+) s\)$", re.M)


def git(*words: str) -> str:
    return subprocess.run(["git", "-C", ROOT, *words], check=True, capture_output=True, text=True).stdout.strip()


def before(commit: str) -> str:
    """The tree that a merge landed on."""
    return git("rev-parse", "--short=7", commit + "^1")


def trees() -> list[str]:
    """Every tree to be proved, once, in the order of the landings."""
    both = [tree for merge in LANDINGS.values() for tree in (before(merge), merge)]
    return list(dict.fromkeys(both))


def proof_lines(folder: Path) -> int:
    found = [path for part in ("specs", "proofs") for path in folder.glob(f"crates/*/{part}/**/*.antt")]
    return sum(len(path.read_bytes().splitlines()) for path in found)


@dataclass
class Run:
    """What a command printed, how it ended, and its seconds, of the clock and of processors."""

    text: str
    status: int
    clock: float
    processor: float


def processor_seconds() -> float:
    used = resource.getrusage(resource.RUSAGE_CHILDREN)
    return used.ru_utime + used.ru_stime


def run(folder: Path, *words: str) -> Run:
    clock, processor = time.monotonic(), processor_seconds()
    environment = os.environ | {"RT_JOBS": "2"}
    done = subprocess.run(words, cwd=folder, env=environment, stdout=subprocess.PIPE, stderr=subprocess.STDOUT, text=True)
    return Run(done.stdout, done.returncode, time.monotonic() - clock, processor_seconds() - processor)


def checked(commit: str, folder: Path) -> list[str]:
    """The lines of a tree: all crates proved from nothing."""
    done = run(folder, "rt", "check")
    outcome = "proved" if done.status == 0 else f"failed, status {done.status}"
    crates = PROVED.findall(done.text)
    lines = [f"crate\t{commit}\t{name}\t{seconds}" for name, seconds in crates]
    figures = f"{done.clock:.0f}\t{done.processor:.0f}\t{len(crates)}\t{proof_lines(folder)}"
    return [*lines, f"tree\t{commit}\t{figures}\t{outcome}"]


def gated(commit: str, folder: Path) -> list[str]:
    """The line of a landing's `rt ci`."""
    done = run(folder, "rt", "ci")
    last = (done.text.strip().splitlines() or ["nothing"])[-1]
    return [f"ci\t{commit}\t{done.clock:.0f}\t{last}"]


def measured(file: Path, kind: str) -> set[str]:
    if not file.exists():
        return set()
    rows = (line.split("\t") for line in file.read_text().splitlines())
    return {row[1] for row in rows if row[0] == kind}


def measure(file: Path, with_ci: bool) -> None:
    works = [("tree", checked, trees())] + ([("ci", gated, list(LANDINGS.values()))] if with_ci else [])
    for kind, work, commits in works:
        for commit in commits:
            if commit in measured(file, kind):
                continue
            folder = Path(tempfile.mkdtemp(prefix="landing-"))
            try:
                archive = subprocess.run(["git", "-C", ROOT, "archive", commit], check=True, capture_output=True)
                subprocess.run(["tar", "-x", "-C", folder], input=archive.stdout, check=True)
                lines = work(commit, folder)
            finally:
                shutil.rmtree(folder)
            with file.open("a") as out:
                out.write("".join(line + "\n" for line in lines))
            print(lines[-1], flush=True)


def draw(file: Path, picture: Path) -> None:
    """Processor seconds and proof lines after each landing, from the tree before the first."""
    import matplotlib

    matplotlib.use("Agg")
    from matplotlib import pyplot

    rows = {row[1]: row for row in (line.split("\t") for line in file.read_text().splitlines()) if row[0] == "tree"}
    commits = [before(LANDINGS["03"]), *LANDINGS.values()]
    figure, seconds = pyplot.subplots(figsize=(9, 4), layout="constrained")
    lines = seconds.twinx()
    places = range(len(commits))
    (left,) = seconds.plot(places, [int(rows[commit][3]) for commit in commits], "o-", label="processor seconds")
    (right,) = lines.plot(places, [int(rows[commit][5]) for commit in commits], "s--", color="C1", label="lines of proof")
    seconds.set_xticks(places, ["base", *LANDINGS])
    seconds.set_xlabel("after request")
    seconds.set_ylabel("processor seconds of rt check")
    lines.set_ylabel("lines of specs/ and proofs/")
    seconds.set_ylim(bottom=0)
    lines.set_ylim(bottom=0)
    seconds.legend(handles=[left, right], loc="lower right")
    figure.savefig(picture)


def main() -> int:
    parser = argparse.ArgumentParser(description=__doc__, formatter_class=argparse.RawDescriptionHelpFormatter)
    verbs = parser.add_subparsers(dest="verb", required=True)
    verb = verbs.add_parser("measure")
    verb.add_argument("--ci", action="store_true")
    verb.add_argument("file", type=Path)
    verb = verbs.add_parser("draw")
    verb.add_argument("file", type=Path)
    verb.add_argument("picture", type=Path)
    options = parser.parse_args()
    if options.verb == "measure":
        measure(options.file, options.ci)
    else:
        draw(options.file, options.picture)
    return 0


if __name__ == "__main__":
    sys.exit(main())
