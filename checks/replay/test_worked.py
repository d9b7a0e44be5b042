"""Each schedule of worked.txt gives the report that was worked out by hand."""

from __future__ import annotations

from pathlib import Path

import pytest
from replay.running import Ran, run
from replay.worked import WorkedExample, worked


@pytest.mark.parametrize("case", worked(), ids=[case.name for case in worked()])
def test_worked(replay: Path, case: WorkedExample) -> None:
    assert run(replay, "replay", *case.options, given=case.schedule) == Ran(0, case.report, "")
