"""The programs of crates for checks alone: `library_cases`, `refusal_cases` and `service_cases`.

They aren't shipped. `prebuilt/` has them, as built from the crates as they stand.
"""

from __future__ import annotations

import functools
import os
import subprocess
from collections.abc import Callable, Sequence
from pathlib import Path

Tell = Callable[[Sequence[str]], str]
TOP = Path(__file__).resolve().parent.parent


@functools.lru_cache(maxsize=None)
def folder() -> Path:
    """The folder that OSB_CASES names, or else the one that `scripts/where` finds or fills."""
    if named := os.environ.get("OSB_CASES"):
        return Path(named)
    where = str(TOP / "scripts" / "where")
    ran = subprocess.run([where, "cases"], stdin=subprocess.DEVNULL, stdout=subprocess.PIPE, text=True, check=False)
    if ran.returncode != 0:
        raise LookupError(f"`scripts/where cases` ended with status {ran.returncode}")
    return Path(ran.stdout.strip())


def program_of(crate: str) -> Path:
    return folder() / crate


def told_by(crate: str) -> Tell:
    """Tells what the program of the crate writes of some lines."""
    program = program_of(crate)

    def tell(lines: Sequence[str]) -> str:
        text = "".join(f"{line}\n" for line in lines)
        ran = subprocess.run([program], input=text.encode(), capture_output=True, check=False)
        assert (ran.returncode, ran.stderr) == (0, b"")
        return ran.stdout.decode()

    return tell
