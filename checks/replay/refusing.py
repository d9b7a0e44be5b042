"""Runs a program with checks/refuse.c loaded before it, which refuses allocations and fails reads and writes."""

from __future__ import annotations

import os
import subprocess
from pathlib import Path
from typing import NamedTuple

from replay.running import Ran


class Counts(NamedTuple):
    """What refuse.c counts."""

    allocations: int
    early_allocations: int
    """Those before the first read."""
    refusals: int
    reads: int
    writes: int
    early_writes: int
    """Those before the end of standard input."""
    largest_read: int


class Trial(NamedTuple):
    """How a run ended, what it wrote, and what was counted."""

    ran: Ran
    counts: Counts

    @property
    def out(self) -> str:
        return self.ran.out

    def ends(self, status: int, message: str) -> bool:
        """Whether it ended so, with this line on standard error."""
        return (self.ran.status, self.ran.err) == (status, f"osb-replay: {message}\n")


class Refuser:
    """Runs a program on one input, while something fails."""

    def __init__(self, shared: Path, folder: Path, program: Path, *arguments: str, given: bytes = b"") -> None:
        self._command = [str(program), *arguments]
        self._given, self._counts = folder / "in", folder / "counts"
        self._given.write_bytes(given)
        self._environment = {**os.environ, "COUNTS": str(self._counts), "LD_PRELOAD": str(shared)}

    def run(self, **asked: int | str) -> Trial:
        """Runs it with what is asked of refuse.c; with nothing asked, nothing fails."""
        self._counts.write_text("0 0 0 0 0 0 0")
        environment = {**self._environment, **{name: str(value) for name, value in asked.items()}}
        with open(self._given, "rb") as given:
            ran = subprocess.run(self._command, stdin=given, env=environment, capture_output=True, check=False)
        counts = Counts(*map(int, self._counts.read_text().split()))
        return Trial(Ran(ran.returncode, ran.stdout.decode(), ran.stderr.decode()), counts)


# ---- the library calls, as the program refusal_cases prints them


class Call(NamedTuple):
    """A call, with what there is before and after it."""

    before: str
    name: str
    returned: str
    after: str

    @property
    def takes_memory(self) -> bool:
        return not self.name.endswith(", without memory")


def calls(out: str) -> list[Call]:
    """The calls that are printed, each in four lines."""
    lines = [line.partition(" ") for line in out.splitlines()]
    assert [first for first, _, _ in lines] == ["before", "call", "returned", "after"] * (len(lines) // 4)
    return [Call(*(rest for _, _, rest in lines[at : at + 4])) for at in range(0, len(lines), 4)]


def refused_call(told: list[Call], whole: list[Call]) -> str:
    """The name of the call that returned Memory.

    There is one. It left what there was before it, and was made again; all else is as in the whole, where nothing is
    refused.
    """
    at = next((at for at, call in enumerate(told) if call.returned == "Memory"), None)
    assert at is not None, "no call returned Memory"
    refused = told[at]
    assert refused.takes_memory, refused
    assert refused.before == refused.after, refused
    assert told[:at] + told[at + 1 :] == whole
    assert at < len(whole) and told[at + 1][:2] == refused[:2], "it wasn't made again"
    return refused.name
