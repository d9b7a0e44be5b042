"""Which package of Go imports which: the rules, and the section of docs/architecture-programs.md."""
from __future__ import annotations

import importlib.util
import os
import sys
from pathlib import Path

import pytest
from commands import needs, ran
from go.toolchain import TOOLS, TOP, needs_packages

SCRIPT = TOP / "scripts" / "go_packages.py"

spec = importlib.util.spec_from_file_location("go_packages", SCRIPT)
assert spec is not None and spec.loader is not None
go_packages = importlib.util.module_from_spec(spec)
sys.modules["go_packages"] = go_packages
spec.loader.exec_module(go_packages)

WHAT = "serves"
"""What a package is for."""


def package(path: str, *imports: str, tests: tuple[str, ...] = (), name: str = "", what: str = WHAT) -> object:
    """A package of go/ that imports these, each as its path below go/ or as a library."""
    full = (frozenset(path if "." in path else f"pippinterm/{path}" for path in them) for them in (imports, tests))
    return go_packages.Package(path, name or path.rpartition("/")[2], what, *full)


@pytest.mark.slow
def test_packages(library: Path) -> None:
    """No package imports what it may not, and the section is current. If it isn't, run scripts/go_packages.py."""
    needs(*TOOLS)
    needs_packages(tests=True)
    environment = {**os.environ, "LIBOSB_FOLDER": str(library)}
    done = ran([SCRIPT, "--check"], environment=environment, merged=True)
    assert (done.returncode, done.stdout) == (0, "")


@pytest.mark.parametrize(
    ("found", "mistake"),
    [
        (package("internal/pg", "broker"), "internal/pg imports broker, but internal may import only internal, osb"),
        (package("internal/pg", "platform/vault"), "internal/pg imports platform/vault"),
        (package("internal/pg", tests=("broker",)), "internal/pg imports broker"),
        (package("broker", "platform"), "broker imports platform"),
        (package("platform/page", "broker/journal"), "platform/page imports broker/journal"),
        (package("broker", "storm/without"), "broker imports storm/without"),
        (package("storm/run", "cmd/osb-broker"), "storm/run imports cmd/osb-broker"),
        (package("examples/folders", "internal/filelock"), "examples/folders imports internal/filelock"),
        (package("osb", "internal/crash"), "osb imports internal/crash"),
        (package("program", "osb"), "go/program isn't one of the folders"),
        (package("internal/pg", name="session"), "the folder go/internal/pg has the package session"),
        (package("internal/pg", what=""), "the package internal/pg has no comment"),
    ],
)
def test_mistakes(found: object, mistake: str) -> None:
    assert [line.startswith(mistake) for line in go_packages.mistakes(by_path(found))] == [True]


@pytest.mark.parametrize(
    "found",
    [
        package("internal/pg", "osb", "internal/crash", "github.com/lib/pq", tests=("internal/pg/pgtest",)),
        package("broker", "internal/crash", "broker/journal", tests=("platform",)),
        package("storm/run/audit", "broker", "platform", "internal/pg", "osb", "storm/report"),
        package("cmd/osb-broker", "storm/without", "broker", name="main"),
        package("examples/folders", "broker", "osb", name="main", tests=("internal/crash",)),
    ],
)
def test_no_mistakes(found: object) -> None:
    assert go_packages.mistakes(by_path(found)) == []


def by_path(*these: object) -> dict[str, object]:
    return {package.path: package for package in these}  # type: ignore[attr-defined]


def test_section() -> None:
    """The picture has each folder with what it imports. The table has the imports below one folder in one."""
    of = by_path(
        package("cmd/osb-broker", "broker", "internal/pg", name="main", what="a broker"),
        package("broker", "internal/pg", "internal/crash", "osb", "github.com/lib/pq/oid"),
        package("internal/pg", "internal/crash"),
        package("internal/crash"),
        package("osb"),
    )
    lines = go_packages.section(of).splitlines()
    for wanted in (
        '    cmd["<b>cmd</b><br/>osb-broker"]',
        '    internal["<b>internal</b><br/>crash, pg"]',
        "    cmd --> broker & internal",
        "    broker --> internal & osb",
        "| `cmd/osb-broker` | a broker | `broker`, `internal/pg` |",
        f"| `broker` | {WHAT} | `internal/{{crash,pg}}`, `osb`, lib/pq |",
        f"| `osb` | {WHAT} | nothing |",
        "The longest chain of imports has 4 packages: `cmd/osb-broker`, `broker`, `internal/pg`, `internal/crash`.",
    ):
        assert wanted in lines


def test_page() -> None:
    """The section goes between its heading and the next one of this level."""
    page = "# Page\n\n## The packages of Go\n\nold\n\n### Below\n\nold\n\n## Next\n\nkept\n"
    assert go_packages.with_section(page, "new\n") == "# Page\n\n## The packages of Go\n\nnew\n\n## Next\n\nkept\n"


@pytest.mark.parametrize(
    ("comment", "what"),
    [
        ("Package pg has connections to PostgreSQL.", "connections to PostgreSQL"),
        ("Package pg opens connections:", "opens connections"),
        ("Program pg is a trial.", "a trial"),
        ("A broker that sells a|b.", "a broker that sells a\\|b"),
        ("", ""),
    ],
)
def test_comment(comment: str, what: str) -> None:
    assert go_packages.package({"ImportPath": "pippinterm/internal/pg", "Name": "pg", "Doc": comment}).what == what
