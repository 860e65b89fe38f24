"""The wheel's tag: any Python 3, on x86-64 Linux with the C library that both shared libraries need."""

import re
import subprocess
from pathlib import Path

from setuptools import Distribution, setup
from wheel.bdist_wheel import bdist_wheel

LIBRARIES = sorted(Path(__file__).parent.glob("src/razvolk/lib/*.so.0"))


def needed_glibc() -> "tuple[int, int]":
    """The newest version of the C library that a symbol of the libraries is bound to; 2.17 at least."""
    versions = [(2, 17)]
    for library in LIBRARIES:
        told = subprocess.run(
            ["readelf", "-V", str(library)], check=True, capture_output=True, text=True
        ).stdout
        versions += [(int(a), int(b)) for a, b in re.findall(r"GLIBC_(\d+)\.(\d+)", told)]
    return max(versions)


class Tagged(bdist_wheel):
    """Named after what the libraries need, and not after the Python that builds it."""

    def finalize_options(self) -> None:
        super().finalize_options()
        self.root_is_pure = False

    def get_tag(self) -> "tuple[str, str, str]":
        major, minor = needed_glibc()
        return "py3", "none", f"manylinux_{major}_{minor}_x86_64"


class Platform(Distribution):
    """Has compiled code, though none that Python builds."""

    def has_ext_modules(self) -> bool:
        return True


if len(LIBRARIES) != 2:
    raise SystemExit(
        "the shared libraries are not in src/razvolk/lib: `make wheel` puts them there"
    )
setup(cmdclass={"bdist_wheel": Tagged}, distclass=Platform)
