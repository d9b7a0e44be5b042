"""The load of bench/ still runs, and prints what it measures."""
from __future__ import annotations

import re
from pathlib import Path

import pytest
from commands import needs, printed

RUN = Path(__file__).resolve().parents[1] / "bench" / "run"


@pytest.mark.slow
@pytest.mark.usefixtures("broker")
def test_a_short_load() -> None:
    needs("wrk")
    words = "--brokers 2 --connections 4 --seconds 1 --creations 1".split()
    made, polls = printed([RUN, *words]).splitlines()
    each = r"\d+\.\d\d ms of processor time each"
    assert re.fullmatch(
        rf"[1-9]\d* creations a second, 0 wrong, {each}; [1-9]\d* made, the brokers take [1-9]\d* MB", made
    )
    assert re.fullmatch(rf"[1-9]\d* polls a second, \d+ wrong, {each}", polls)
