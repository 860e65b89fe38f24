"""The repository: its crates with what they use, and its files."""

from __future__ import annotations

from dataclasses import dataclass
from functools import cached_property
from pathlib import Path


@dataclass(frozen=True)
class Crate:
    """A crate of crates.txt and those that it uses; some of these are the toolchain's own."""

    name: str
    uses: tuple[str, ...]


class Repository:
    """A folder with crates.txt, crates/ and documents."""

    def __init__(self, top: Path) -> None:
        self.top = top
        self._texts: dict[str, str] = {}

    def text(self, path: str) -> str:
        """The text of a file, by its path from the top."""
        if path not in self._texts:
            self._texts[path] = (self.top / path).read_text(encoding="utf-8")
        return self._texts[path]

    def paths(self, pattern: str) -> list[str]:
        """The files that a pattern names, sorted, as paths from the top."""
        found = (path for path in self.top.glob(pattern) if path.is_file())
        return sorted(path.relative_to(self.top).as_posix() for path in found)

    @cached_property
    def crates(self) -> dict[str, Crate]:
        """The crates in the sequence of crates.txt."""
        lines = (line.split("#")[0] for line in self.text("crates.txt").splitlines())
        parted = (line.partition(":") for line in lines if ":" in line)
        # Words on how a crate is built may follow its name.
        found = (Crate(name.split()[0], tuple(uses.split())) for name, _, uses in parted)
        return {crate.name: crate for crate in found}

    @cached_property
    def layers(self) -> list[list[str]]:
        """The crates by layers: each uses only such as stand in layers before its own, and stands as low as it can."""
        height: dict[str, int] = {}

        def at(name: str) -> int:
            if name not in height:
                below = [at(used) + 1 for used in self.crates[name].uses if used in self.crates]
                height[name] = max(below, default=0)
            return height[name]

        layers: list[list[str]] = [[] for _ in range(max(map(at, self.crates), default=-1) + 1)]
        for name in self.crates:
            layers[height[name]].append(name)
        return layers

    def users(self, name: str) -> list[str]:
        """The crates that use a crate."""
        return [crate.name for crate in self.crates.values() if name in crate.uses]


def crate_of(path: str) -> str:
    """The crate that a file below crates/ belongs to."""
    return path.split("/")[1]
