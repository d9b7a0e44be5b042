"""The lines of library_cases for updates say what the model says: no program is needed."""

from __future__ import annotations

import pytest
from update.cases import FOLDER, PARTS, call_of, of_files
from update.texts import FAULTS

CALLS = {
    *("begin", "end", "finish", "poll", "fetch", "begin-instance"),
    *("update", "send", "send-fetch", "stop", "answer", "fetched", "timeout", "can-be", "new", "change-to"),
    *("write-holding", "write-record", "holding", "record"),
}
# What is compared with the crate in test_crate.py.
CELLS = 117_956


def lines_of(name: str) -> list[str]:
    lines = (FOLDER / name).read_text(encoding="utf-8").splitlines()
    return [line for line in lines if line.startswith("update ")]


def test_stdin() -> None:
    assert [step.line for step in of_files()] == lines_of("stdin")


def test_stdout() -> None:
    assert [f"{step.line}  {step.wanted}" for step in of_files()] == lines_of("stdout")


def test_what_the_files_have() -> None:
    """Each call, and each fault of a text."""
    steps = of_files()
    assert {call_of(step) for step in steps} == CALLS
    assert {*FAULTS} <= {step.wanted for step in steps}


@pytest.mark.slow
def test_cells() -> None:
    """No cell stands twice."""
    lines = [step.line for part in PARTS.values() for step in part()]
    assert len(lines) == len({*lines}) == CELLS
