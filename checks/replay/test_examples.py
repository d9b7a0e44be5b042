"""Each schedule in examples/ gives the report beside it, with --settle the settled report, and its trace. So does each
network schedule in examples/network/.
"""

from __future__ import annotations

from pathlib import Path

import pytest
from replay.running import EXAMPLES, Ran, run
from replay.worked import ONE

NETWORK = EXAMPLES / "network"
OPTIONS = {
    (EXAMPLES, ".report"): ["replay"],
    (EXAMPLES, ".settled"): ["replay", "--settle"],
    (EXAMPLES, ".trace"): ["trace", "--instance", ONE],
    (NETWORK, ".report"): ["network"],
    (NETWORK, ".settled"): ["network", "--settle"],
    (NETWORK, ".trace"): ["network", "--trace"],
}
SCHEDULES = sorted(EXAMPLES.rglob("*.schedule"))
TOLD = sorted(path for path in EXAMPLES.rglob("*") if (path.parent, path.suffix) in OPTIONS)


def named(path: Path) -> str:
    return str(path.relative_to(EXAMPLES))


def test_there_are_examples() -> None:
    assert {(path.parent, path.suffix) for path in TOLD} == {*OPTIONS}


@pytest.mark.parametrize("schedule", SCHEDULES, ids=named)
def test_a_report_is_beside(schedule: Path) -> None:
    assert schedule.with_suffix(".report").exists()


@pytest.mark.parametrize("told", TOLD, ids=named)
def test_example(replay: Path, told: Path) -> None:
    schedule = told.with_suffix(".schedule").read_bytes()
    assert run(replay, *OPTIONS[told.parent, told.suffix], given=schedule) == Ran(0, told.read_text(), "")
