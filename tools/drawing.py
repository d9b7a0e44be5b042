"""What the pictures of tools/picture have in common: SVG in the colours of a light or a dark page."""

from __future__ import annotations

from collections.abc import Iterable
from html import escape

ID = "[0-9a-fA-F]{8}(?:-[0-9a-fA-F]{4}){3}-[0-9a-fA-F]{12}"
STYLE = """
text { font: 13px ui-monospace, Menlo, Consolas, "DejaVu Sans Mono", monospace; fill: #1f2328 }
.title { font-size: 15px; font-weight: 600 } .side { font-weight: 600 } .number, .legend { fill: #59636e }
.skipped { fill: #6e7781 } .bad { fill: #c21c2c } line, path { stroke: #59636e; fill: none }
.life { stroke: #d1d9e0; stroke-width: 2 } .way { stroke: #0969da; stroke-width: 1.6 } .mark { fill: #0969da }
.broken { stroke: #c21c2c; stroke-width: 1.6 } .again { stroke-dasharray: 5 4 } .sheet { fill: #ffffff }
.restart { fill: #fff1d6 }
@media (prefers-color-scheme: dark) {
text { fill: #e6edf3 } .number, .legend { fill: #9198a1 } .skipped { fill: #7d8590 } .bad { fill: #ff7b72 }
line, path { stroke: #9198a1 } .life { stroke: #3d444d } .way { stroke: #58a6ff } .broken { stroke: #ff7b72 }
.mark { fill: #58a6ff } .sheet { fill: #0d1117 } .restart { fill: #33260b } }
"""


class NoTrace(Exception):
    """Why what was read is no trace of one instance."""


def text(x: int, y: float, words: str, anchor: str = "start", kind: str = "") -> str:
    marked = f' class="{kind}"' if kind else ""
    return f'<text x="{x}" y="{y:g}" text-anchor="{anchor}"{marked}>{escape(words)}</text>'


def arrow(start: int, end: int, y: float, kind: str) -> str:
    back = -7 if end > start else 7
    head = f"M{end + back} {y - 4:g} L{end} {y:g} L{end + back} {y + 4:g}"
    return f'<path class="{kind}" d="M{start} {y:g} H{end}"/><path class="{kind.split()[0]}" d="{head}"/>'


def cross(x: int, y: float) -> str:
    return f'<path class="broken" d="M{x - 5} {y - 5:g} l10 10 m0 -10 l-10 10"/>'


def mark(x: int, y: float) -> str:
    return f'<circle class="mark" cx="{x}" cy="{y:g}" r="4.5"/>'


def band(x: int, y: float) -> str:
    return f'<rect class="restart" x="{x}" y="{y - 13:g}" width="150" height="26" rx="4"/>'


def sheet(title: str, told: str, size: tuple[int, int], parts: Iterable[str]) -> str:
    """The whole picture, with its title and what it shows in words."""
    width, height = size
    heading = f'<title id="title">{title}</title><desc id="desc">{escape(told)}</desc>'
    area = f'width="{width}" height="{height}"'
    return (
        f'<svg xmlns="http://www.w3.org/2000/svg" viewBox="0 0 {width} {height}" {area} role="img" '
        f'aria-labelledby="title desc">\n{heading}\n<style>{STYLE}</style>\n<rect class="sheet" {area}/>\n'
        + "\n".join(filter(None, parts))
        + "\n</svg>\n"
    )
