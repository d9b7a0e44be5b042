"""Compares osb_binding_network with the model, event by event.

The program of the crate service_cases prints what there is after each line. OSB_EXAMPLES=10 takes ten times as many
steps, from a seed that is drawn at random and printed.
"""

from __future__ import annotations

import os
import random
from itertools import islice

import pytest
from binding.cases import of_unfetched, of_ways, rules_of, written, written_of
from binding.walks import services
from crate_programs import Tell, told_by
from shortest import shortest

pytestmark = pytest.mark.slow

TIMES = int(os.environ.get("OSB_EXAMPLES", "0"))
SEED = random.randrange(1_000_000) if TIMES else 1
# How many steps, by the sides that satisfy their rules. If the platform does, the broker puts nothing off.
STEPS = {"platform broker": 100_000, "broker": 50_000, "platform": 20_000, "-": 20_000}


@pytest.fixture(scope="module")
def tell() -> Tell:
    return told_by("service_cases")


def compare(tell: Tell, lines: list[str], wanted: list[str]) -> None:
    """The program writes what is wanted. If not, the fewest lines are shown that lead to the first difference."""
    told = tell(lines).splitlines()
    different = next((at for at, (one, other) in enumerate(zip(told, wanted)) if one != other), None)
    if different is not None:
        start = max(at for at in range(different + 1) if lines[at].startswith(("service ", "run ")))
        begun = lines[start]
        rest = shortest(lines[start + 1 : different + 1], lambda it: is_different(tell, [begun, *it]))
        assert told[different] == wanted[different], "\n".join([begun, *rest])
    assert len(told) == len(wanted)


def is_different(tell: Tell, lines: list[str]) -> bool:
    return tell(lines).splitlines() != list(written_of(lines))


def test_ways(tell: Tell) -> None:
    lines = [line for way in (*of_ways(), *of_unfetched()) for line in way]
    compare(tell, lines, list(written_of(lines)))


@pytest.mark.parametrize("sides", STEPS)
def test_walk(tell: Tell, sides: str) -> None:
    print("seed", SEED)
    walk = islice(services(random.Random(SEED), rules_of(sides)), STEPS[sides] * max(TIMES, 1))
    steps = [step for _, step in walk]
    compare(tell, [step.line for step in steps], [written(step) for step in steps])
