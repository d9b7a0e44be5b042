"""Runs osb-audit over journals."""

from __future__ import annotations

import json
import sys
from collections.abc import Callable
from pathlib import Path
from typing import Any, NamedTuple

import commands
import pytest
from audit.journals import Journal

TOP = Path(__file__).resolve().parents[2]
SECONDS = 120


class Ran(NamedTuple):
    """How an audit ended, and what it wrote."""

    status: int
    out: str
    err: str

    @property
    def report(self) -> dict[str, Any]:
        """The report of an audit with --json."""
        found: dict[str, Any] = json.loads(self.out)
        return found


Audit = Callable[..., Ran]


def audited(*words: str) -> Ran:
    """Runs osb-audit with these arguments. The fixtures `replay` and `library` have to come first."""
    ran = commands.ran([sys.executable, TOP / "programs" / "run.py", "osb_audit", *words], seconds=SECONDS)
    return Ran(ran.returncode, ran.stdout, ran.stderr)


@pytest.fixture
def audit(replay: Path, library: Path, tmp_path: Path) -> Audit:
    """Runs osb-audit over these journals, with these arguments before them."""

    def run(*journals: Journal | Path | str, options: tuple[str, ...] = ("--json", "--jobs", "1")) -> Ran:
        paths: list[Path | str] = []
        for journal in journals:
            if isinstance(journal, Journal):
                paths += journal.files(tmp_path)
            else:
                paths.append(journal)
        return audited(*options, *map(str, paths))

    return run
