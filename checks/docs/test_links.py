"""Each relative link of the documents leads to a file that exists, and to a heading that stands in it."""
from __future__ import annotations

import re
from os.path import dirname, join, normpath

import pytest
from docs.pages import TOP, pages, prose

HEADING = re.compile(r"^#{1,6} +(.+)$", re.MULTILINE)
LINK = re.compile(r"\]\(([^()\s]+)\)|^\[[^\]]+\]: (\S+)", re.MULTILINE)
CODE = re.compile(r"`[^`]*`")


def anchors(page: str) -> set[str]:
    """The anchors of the headings: lower case, words joined by hyphens, and a number if the name is there already."""
    words = [re.sub(r"\]\([^)]*\)", "", heading).lower() for heading in HEADING.findall(prose(page))]
    names = [re.sub(r"[^\w\- ]", "", word).replace(" ", "-") for word in words]
    return {f"{name}-{names[:at].count(name)}" if name in names[:at] else name for at, name in enumerate(names)}


def links(page: str) -> list[str]:
    """The links to this repository."""
    text = CODE.sub(lambda code: "" if "](" in code[0] else code[0], prose(page))
    found = ["".join(groups) for groups in LINK.findall(text)]
    return [target for target in found if not re.match("[a-z]+:", target)]


def is_broken(page: str, link: str) -> bool:
    """Whether the link leads nowhere, or out of the repository."""
    path, _, anchor = link.partition("#")
    target = normpath(join(dirname(page), path)) if path else page
    is_there = not target.startswith(("/", "..")) and (TOP / target).exists()
    return not is_there or anchor != "" and (not target.endswith(".md") or anchor not in anchors(target))


@pytest.mark.parametrize("page", pages())
def test_links(page: str) -> None:
    assert [link for link in links(page) if is_broken(page, link)] == []


def test_broken_links_are_found() -> None:
    assert len(links("README.md")) > 10
    wrong = ["absent.md", "#absent", "../../README.md", "/README.md", "../LICENSE#x"]
    tried = [*wrong, "#the-storm", "../README.md"]
    assert [link for link in tried if is_broken("docs/platform-guide.md", link)] == wrong
