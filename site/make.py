#!/usr/bin/env python3
"""Builds the static site of the repository.

    site/make.py FOLDER [LIBRARY]

The site is put into FOLDER, in place of one that is there. LIBRARY is the shared library that is run for the pictures of a frame;
without, the repository's own below target/staticlib.
"""

from __future__ import annotations

import shutil
import signal
import subprocess
import sys
import tempfile
from pathlib import Path
from typing import Any

import yaml

import search
import sources
from addresses import Addresses, anchor_of, function_anchor
from code_index import Code
from crate_pages import CratePages
from documents import listed, with_links
from evidence import Evidence
from lacks import Lacks
from life import Life
from names import Key
from panels import Panels
from promises import Promises
from repository import Repository
from rule_pages import MARK, RulePages
from rules import Rules
from samsung import Samsung

# What mkdocs and its theme put there for servers, other languages and those who debug them.
UNUSED = ("sitemap.xml*", "404.html", "assets/**/*.map", "assets/javascripts/lunr")
HERE = Path(__file__).resolve().parent


class Site:
    """All that the pages are made of."""

    def __init__(self, top: Path, library: str) -> None:
        self.repository = Repository(top)
        self.code = Code(self.repository)
        self.rules = Rules(self.code)
        self.evidence = Evidence(self.code)
        self.addresses = Addresses(self.code, self.rules)
        self.panels = Panels(self.code, self.evidence, self.addresses, Samsung(self.code, self.evidence))
        self.rule_pages = RulePages(self.addresses)
        self.crates = CratePages(self.code, self.evidence, self.addresses)
        self.promises = Promises(self.code, self.addresses, self.panels)
        self.life = Life(self.evidence, self.addresses, library)
        self.lacks = Lacks(self.evidence, self.addresses)
        self.functions = {function_anchor(one): one for one in self.code.functions}
        self.keys: dict[str, Key] = {anchor_of(key): key for key in self.code.items if key[1].startswith("specs.")}

    def pages(self) -> dict[str, str]:
        """The Markdown of each page, by its name."""
        found = {"index.md": self.rule_pages.front()}
        found.update({f"rules/{one.slug}.md": self.rule_pages.page(one) for one in self.rules.sections})
        found.update({"promises.md": self.promises.page(), "life.md": self.life.page(), "crates/index.md": self.crates.front()})
        found.update({f"crates/{name}.md": self.crates.page(name) for name in self.repository.crates})
        for path in listed(self.addresses):
            page = self.addresses.document(path)
            found[page.removesuffix(".html") + ".md"] = with_links(self.repository.text(path), path, page, self.addresses)
        found["lacks.md"] = self.lacks.page()
        return found

    def nav(self) -> list[Any]:
        """The order of the pages."""
        rules: list[Any] = ["index.md", *({one.title: f"rules/{one.slug}.md"} for one in self.rules.sections)]
        papers = [self.addresses.document(path).removesuffix(".html") + ".md" for path in listed(self.addresses)]
        crates: list[Any] = ["crates/index.md", *({name: f"crates/{name}.md"} for name in self.repository.crates)]
        return [
            {"Rules": [*rules, {"What lacks something": "lacks.md"}]},
            {"Promises": "promises.md"},
            {"Life of a frame": "life.md"},
            {"Crates": crates},
            {"Documents": papers},
        ]

    def html(self, kind: str, names: list[str], page: str) -> str:
        """What stands at a marked place of a page."""
        if kind == "definitions":
            return "".join(self.panels.definition(self.keys[name], page) for name in names)
        if kind == "functions":
            return "".join(self.panels.function(self.functions[name], page) for name in names)
        if kind == "promise":
            return self.promises.html(int(names[0]))
        if kind == "walk":
            return self.life.walk(names[0])
        return self.life.pictures(names[0]) if kind == "steps" else self.crates.drawing()


def write(path: Path, text: str) -> None:
    """Writes a file, and its folder if there is none."""
    path.parent.mkdir(parents=True, exist_ok=True)
    path.write_text(text, encoding="utf-8")


def write_pages(site: Site, folder: Path) -> None:
    """What mkdocs makes the pages from."""
    for name, text in site.pages().items():
        write(folder / "docs" / name, text)
    for path in site.repository.paths("docs/*.png"):
        shutil.copyfile(site.repository.top / path, folder / "docs" / "documents" / Path(path).name)
    settings = yaml.safe_load((HERE / "mkdocs.yml").read_text(encoding="utf-8"))
    settings["theme"]["custom_dir"] = str(HERE / "theme")
    write(folder / "mkdocs.yml", yaml.safe_dump({**settings, "nav": site.nav()}, allow_unicode=True, sort_keys=False))


def fill(site: Site, out: Path) -> None:
    """Puts what was marked into the pages."""
    for path in sorted(out.rglob("*.html")):
        page = path.relative_to(out).as_posix()
        text = path.read_text(encoding="utf-8")
        made = MARK.sub(lambda found: site.html(found[1], found[2].split(), page), text)
        write(path, made)


def built(site: Site, work: Path) -> Path:
    """Builds the site in a folder for that alone; where it is."""
    out = work / "site"
    write_pages(site, work)
    words = ["mkdocs", "build", "--quiet", "--strict", "--config-file", str(work / "mkdocs.yml"), "--site-dir", str(out)]
    subprocess.run(words, check=True)
    for pattern in UNUSED:
        for path in out.glob(pattern):
            shutil.rmtree(path) if path.is_dir() else path.unlink()
    fill(site, out)
    search.write(out, search.entries(site.code, site.addresses))
    for source in sorted(site.addresses.sources):
        write(out / "sources" / f"{source}.html", sources.page(site.repository, source))
    return out


def build(top: Path, out: Path, library: str) -> None:
    """Puts the site into a folder, whole or not at all. A folder that is no site is not touched."""
    if out.exists() and not (out / search.INDEX).is_file():
        raise SystemExit(f"site/make.py: {out} is there, and is no site")
    for program in ("mkdocs", "dot", "tred"):
        if shutil.which(program) is None:
            raise SystemExit(f"site/make.py: {program} is not installed")
    out.parent.mkdir(parents=True, exist_ok=True)
    with tempfile.TemporaryDirectory(prefix=f"{out.name}.", dir=out.parent) as work:
        made = built(Site(top, library), Path(work))
        shutil.rmtree(out, ignore_errors=True)
        made.rename(out)


def main() -> None:
    if len(sys.argv) not in (2, 3):
        raise SystemExit("usage: site/make.py FOLDER [LIBRARY]")
    # What ends it removes what it has begun.
    signal.signal(signal.SIGTERM, lambda *_: sys.exit(1))
    top = HERE.parent
    library = sys.argv[2] if len(sys.argv) > 2 else str(top / "target/staticlib/librazvolk.so.0")
    build(top, Path(sys.argv[1]).resolve(), library)


if __name__ == "__main__":
    main()
