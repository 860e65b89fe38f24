"""Drawings by graphviz, as SVG that takes the page's colours."""

from __future__ import annotations

import re
import subprocess


def drawn(dot: str, kind: str, reduced: bool = False) -> str:
    """The SVG of a graph; where it is to be reduced, an edge is left out that a longer way stands for."""
    if reduced:
        dot = subprocess.run(["tred"], input=dot, capture_output=True, text=True, check=True).stdout
    svg = subprocess.run(["dot", "-Tsvg"], input=dot, capture_output=True, text=True, check=True).stdout
    svg = svg[svg.index("<svg") :]
    svg = re.sub(r"<!--.*?-->\n?", "", svg, flags=re.S)
    svg = re.sub(r"<title>.*?</title>\n?", "", svg, flags=re.S)
    svg = re.sub(r' xlink:title="[^"]*"| id="[^"]*"', "", svg).replace("xlink:href", "href")
    svg = re.sub(r'<polygon fill="white" stroke="(?:transparent|none)"[^>]*/>\n?', "", svg)
    return f'<div class="drawing {kind}">{svg}</div>'


def quoted(text: str) -> str:
    """A text as graphviz reads it."""
    return '"' + text.replace("\\", "\\\\").replace('"', '\\"') + '"'


def node(name: str, label: str, url: str, more: str = "") -> str:
    """A box that is a link."""
    return f"{quoted(name)} [label={quoted(label)}, URL={quoted(url)}{', ' + more if more else ''}];"
