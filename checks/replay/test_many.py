"""Many instances, in any order of their ids, side by side and one after another, as the reference has them."""

from __future__ import annotations

from pathlib import Path

import pytest
from replay.running import Ran, run
from replay.worked import lines, report
from replay_log.expected import by_reference
from replay_log.logs import large_log


@pytest.mark.slow
@pytest.mark.parametrize("options", [["--saved"], ["--settle"]], ids=" ".join)
@pytest.mark.parametrize("seed", range(6))
def test_many(replay: Path, seed: int, options: list[str]) -> None:
    log = large_log(seed, 20_000, 99_000)
    expected = by_reference(log.lines, options)
    assert expected.report.count("\n") > 1000
    assert run(replay, "replay", *options, given=log.whole()) == Ran(0, expected.report, "")


@pytest.mark.parametrize("is_rising", [True, False], ids=["rising", "mixed"])
def test_more_than_16_bits_can_count(replay: Path, is_rising: bool) -> None:
    """The requests of the last 4,464 of 70,000 instances are delivered, and no others. If the list of messages counted
    its places in 16 bits, the requests of the first 4,464 would be delivered instead. The prime 1237 doesn't divide
    70,001, so no mixed id comes twice.
    """
    numbers = range(1, 70_001) if is_rising else [number * 1237 % 70_001 for number in range(1, 70_001)]
    instances = [f"{number:08}-0000-0000-0000-000000000000" for number in numbers]
    delivered = instances[65_536:]
    created = [f"create {instance} S P no" for instance in instances]
    text = lines("; ".join(["plan S P sync", *created, *(f"deliver {instance} done" for instance in delivered)]))
    phases = dict.fromkeys(instances, "none") | dict.fromkeys(delivered, "ready")
    ends = [f"{instance} wanted {phase}" for instance, phase in sorted(phases.items())]
    assert run(replay, "replay", given=text) == Ran(0, report(ends, 74_464, 0), "")
