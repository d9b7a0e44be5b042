"""Read the documents: their blocks of code, and their prose."""
from __future__ import annotations

import re
from pathlib import Path

import pytest

TOP = Path(__file__).resolve().parents[2]

_FENCED = re.compile(r"^```.*\n((?:.*\n)*?)```$", re.MULTILINE)
_INDENTED = re.compile(r"(?<=\n\n) {4}.*\n(?: {4}.*\n|\n(?= {4}))*")


def read(page: str) -> str:
    """The text of a file, named from the top of the repository."""
    return (TOP / page).read_text(encoding="utf-8")


def pages() -> list[str]:
    """Every page of Markdown, named from the top of the repository."""
    return sorted(str(path.relative_to(TOP)) for path in (*TOP.glob("*.md"), *TOP.glob("docs/*.md")))


def prose(page: str) -> str:
    """The page without its fenced blocks."""
    return _FENCED.sub("", read(page))


def blocks(page: str) -> list[str]:
    """The texts of the page's blocks: first the fenced ones, then the indented ones."""
    indented = _INDENTED.findall(prose(page))
    return [*_FENCED.findall(read(page)), *(re.sub("^ {4}", "", text, flags=re.MULTILINE) for text in indented)]


def block(page: str, beginning: str) -> str:
    """The page's block with this text, or else the one that begins with it."""
    there = blocks(page)
    (found,) = [text for text in there if text == beginning] or [text for text in there if text.startswith(beginning)]
    return found


def packages(text: str) -> set[str]:
    """The packages that the text names after apt-get install."""
    found = re.findall(r"apt-get install((?: -\S+)*)((?: [a-z0-9.+-]+)+)", re.sub(r"\\\n *", "", text))
    return {name for _, names in found for name in names.split()}


_COVERED: dict[str, set[str]] = {}


def covers(page: str, *beginnings: str) -> pytest.MarkDecorator:
    """Give a test the texts of these blocks of a page."""
    texts = [block(page, beginning) for beginning in beginnings]
    _COVERED.setdefault(page, set()).update(texts)
    return pytest.mark.parametrize("texts", [texts], ids=[page])


def uncovered(page: str) -> list[str]:
    """The blocks of a page that no test which was imported covers."""
    return [text for text in blocks(page) if text not in _COVERED.get(page, ())]
