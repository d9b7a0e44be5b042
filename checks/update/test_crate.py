"""osb_update and osb_update_text give what the model and Python's json give, of each cell and of each text.

The program of the crate library_cases prints what they give. OSB_EXAMPLES=10 takes ten times as many random cases, and
./check --anew fifty times.
"""

from __future__ import annotations

import json
import os
import random
from collections import Counter
from collections.abc import Sequence

import pytest
from crate_programs import told_by
from network.walks import Step
from update import texts
from update.cases import HOLDINGS, PARTS, RECORDS, call_of, of_holding, of_record, some_holding, some_record, some_step
from update.texts import FAULTS, of_text, some_text
from whole import ANEW

pytestmark = pytest.mark.slow

EXAMPLES = os.environ.get("OSB_EXAMPLES")
SEED = random.randrange(1_000_000) if EXAMPLES else 1
COUNT = 2_000 * (50 if ANEW else int(EXAMPLES or 1))


def compare(steps: Sequence[Step]) -> None:
    told = told_by("library_cases")([step.line for step in steps]).split("\n")
    assert len(told) == len(steps) + 1
    for step, line in zip(steps, told):
        assert line == f"{step.line}  {step.wanted}"


@pytest.mark.long(10)
@pytest.mark.parametrize("part", PARTS)
def test_cells(part: str) -> None:
    compare(list(PARTS[part]()))


def test_random_cells() -> None:
    """Any numbers and settings."""
    print("seed", SEED)
    chance = random.Random(SEED)
    compare([some_step(chance) for _ in range(COUNT)])


# ---- texts


def test_texts() -> None:
    """Each holding and each record of the cells is written as Python's json writes it, and read back. A record that
    can't come about is rejected.
    """
    written = [texts.of_holding(of_holding(holding), holding) for holding in HOLDINGS]
    written += [texts.of_record(of_record(record), record) for record in RECORDS]
    compare(written)
    members = [*map(texts.holding, HOLDINGS), *map(texts.record, RECORDS)]
    assert [json.loads(step.wanted) for step in written] == members
    back = [of_text(call_of(step).removeprefix("write-"), step.wanted) for step in written]
    compare(back)
    whole = [step.wanted for step in written]
    assert {step.wanted for step, text in zip(back, whole) if step.wanted != text} == {"Impossible"}


@(pytest.mark.long(60) if ANEW else pytest.mark.slow)
def test_random_texts() -> None:
    """Texts in other spacings and orders, of any ids, digests and numbers; most of them are broken."""
    print("seed", SEED)
    chance = random.Random(SEED)
    steps = []
    for _ in range(COUNT // 2):
        steps.append(of_text("holding", some_text(chance, texts.holding(some_holding(chance)))))
        steps.append(of_text("record", some_text(chance, texts.record(some_record(chance)))))
    compare(steps)
    came = Counter(step.wanted if step.wanted in FAULTS else "read" for step in steps)
    assert {*came} == {*FAULTS, "read"}
