"""Runs the program osb-replay."""

from __future__ import annotations

import subprocess
from pathlib import Path
from typing import IO, NamedTuple

TOP = Path(__file__).resolve().parent.parent.parent
EXAMPLES = TOP / "examples"
SECONDS = 60


class Ran(NamedTuple):
    """How a run ended, and what it wrote."""

    status: int
    out: str
    err: str


def run(program: Path, *arguments: str | bytes, given: bytes | str = b"") -> Ran:
    """Runs the program with these arguments, and this on standard input."""
    data = given if isinstance(given, bytes) else given.encode()
    ran = subprocess.run([program, *arguments], input=data, capture_output=True, check=False, timeout=SECONDS)
    return Ran(ran.returncode, ran.stdout.decode(), ran.stderr.decode())


def run_from(given: int | IO[bytes], program: Path, *arguments: str) -> Ran:
    """The same, with this file as standard input."""
    ran = subprocess.run([program, *arguments], stdin=given, capture_output=True, check=False, timeout=SECONDS)
    return Ran(ran.returncode, ran.stdout.decode(), ran.stderr.decode())


def fault(line: int, name: str) -> Ran:
    """What comes of a schedule with this fault in this line."""
    return Ran(1, "", f"osb-replay: line {line}: {name}\n")
