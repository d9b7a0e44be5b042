"""Builds in tests: how, and one at a time."""

from __future__ import annotations

import contextlib
import fcntl
from collections.abc import Iterator
from pathlib import Path

TOP = Path(__file__).resolve().parent.parent

SHIPPED = "libsqlite3 netgo osusergo sqlite_omit_load_extension"
"""The build tags of scripts/go_program.sh. With them and `-trimpath`, what a test builds has most packages in common
with the programs, which are built anyway.
"""


@contextlib.contextmanager
def building(race: bool = False) -> Iterator[None]:
    """One block at a time of all processes in this checkout, so that no two build the same: they fill one cache of Go.
    With the race detector all is built differently, so that goes beside the rest. scripts/go_program.sh takes the same
    lock.
    """
    with open(TOP / "scripts" / ("go" if race else "go_program.sh")) as lock:
        fcntl.flock(lock, fcntl.LOCK_EX)
        yield
