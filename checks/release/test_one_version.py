"""The version stands in VERSION, and whatever else has it has the same one."""

from __future__ import annotations

import ctypes
import re
from pathlib import Path

import osb
from docs.pages import TOP, block, packages, read
from docs.test_commands import installed

from api import table


def in_header() -> str:
    parts = re.findall(r"^#define OSB_VERSION_(?:MAJOR|MINOR|PATCH) (\d+)$", read("include/osb.h"), re.MULTILINE)
    return ".".join(parts)


def in_library(library: Path) -> str:
    """The version that the library itself returns."""
    loaded = ctypes.CDLL(str(library / "libosb.so"))
    number = int(loaded.osb_version())
    return f"{number // 10000}.{number // 100 % 100}.{number % 100}"


def first(pattern: str, file: str) -> str:
    """What the first match of the pattern in a file has in its group."""
    found = re.search(pattern, read(file), re.MULTILINE)
    assert found is not None, file
    return found[1]


def test_one_version(library: Path, version: str) -> None:
    """Of the header, its table, the library, the package for Python, and the newest part of CHANGELOG."""
    assert re.fullmatch(r"\d+\.\d+\.\d+", version)
    found = {
        "header": in_header(),
        "table": ".".join(map(str, table.VERSION)),
        "library": in_library(library),
        "package": osb.__version__,
        "pyproject": first(r'^version = "(.*)"$', "python/pyproject.toml"),
        "changelog": first(r"^## (\d+\.\d+\.\d+)$", "CHANGELOG.md"),
    }
    assert found == dict.fromkeys(found, version)


def test_guide_names_the_version(version: str) -> None:
    """The names of the files in docs/install.md are those of this version."""
    named = re.findall(r"\bosb(?:-dev)?[_-](\d+\.\d+\.\d+)", read("docs/install.md"))
    assert len(named) >= 5 and set(named) == {version}
    assert (TOP / "VERSION").read_text() == f"{version}\n"


def test_packages_of_the_guide() -> None:
    """The gate installs what docs/install.md names to make a release."""
    named = packages(block("docs/install.md", "sudo apt-get install binutils "))
    assert len(named) > 5 and named - installed() == set()
