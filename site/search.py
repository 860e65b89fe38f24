"""The search's index: mkdocs' own, and an entry for each definition, function and theorem. It is a script, since pages that are
opened as files may not fetch."""

from __future__ import annotations

import json
from html import escape
from pathlib import Path
from typing import Any

from addresses import Addresses
from antt import first_sentence
from code_index import Code, is_spec
from rule_pages import MARK

# Where the pages load the index from.
INDEX = "search/search_index.js"


def entry(location: str, title: str, text: str) -> dict[str, str]:
    """A thing that can be found. The theme takes its title for HTML."""
    return {"location": location, "title": escape(title, quote=False), "text": " ".join(text.split())}


def entries(code: Code, addresses: Addresses) -> list[dict[str, str]]:
    """The definitions, the functions and the theorems that have a comment."""
    found: list[dict[str, str]] = []
    for key, item in code.items.items():
        if item.public and (is_spec(key) or item.comment):
            title = f"{key[1].rsplit('.', 1)[1]}.{key[2]}"
            found.append(entry(addresses.item(key), title, item.comment if is_spec(key) else first_sentence(item.comment)))
    for function in code.functions:
        if function.public:
            found.append(entry(addresses.function(function), function.full, first_sentence(function.comment)))
    return found


def write(site: Path, found: list[dict[str, str]]) -> None:
    """Puts the index where the pages load it from."""
    plain = site / "search" / "search_index.json"
    index: dict[str, Any] = json.loads(plain.read_text(encoding="utf-8"))
    for one in index["docs"]:
        one["text"] = MARK.sub(" ", one["text"])
    known = {one["location"] for one in index["docs"]}
    for page in dict.fromkeys(one["location"].split("#")[0] for one in found):
        if page not in known:
            title = page.removeprefix("sources/").removesuffix(".html")
            index["docs"] += [entry(page, title, ""), entry(f"{page}#L1", title, "")]
    index["docs"] += found
    text = json.dumps(index, ensure_ascii=False, separators=(",", ":"))
    (site / INDEX).write_text(f"__search.ready({text});\n", encoding="utf-8")
    plain.unlink()
