"""Compares osb_network, and the records and holdings of libosb, with a second model of them.

The program of the crate service_cases prints what osb_network makes of an event. What a record and a holding of
libosb make of it is asked through the package osb. Both are the proved code.

OSB_EXAMPLES=10 compares ten times as many events, drawn at random (checks/generated.py).
"""

from __future__ import annotations

import pytest
from crate_programs import told_by
from generated import examples
from hypothesis import given
from hypothesis import strategies as st
from network import cases, shipped
from network.alone import LoneBroker
from network.alone import Tally as LoneTally
from network.cases import TellEach, at_once, in_a_line
from network.walks import Step, Tally, Walk, any_event, likely

# What never applies: numbers of requests that are never sent, as large as they get.
UNSENT = [f"{word} {number}" for word in ("arrive", "put-off") for number in (2**32, 2**64 - 1)]


@pytest.fixture(params=["libosb", "osb_network"])
def tell(request: pytest.FixtureRequest) -> TellEach:
    """Tells what is left after each line of a walk."""
    if request.param == "libosb":
        request.getfixturevalue("library")
        return shipped.tell
    return cases.teller()


def compare(tell: TellEach, steps: list[Step]) -> None:
    """All of these steps leave what the model has after them."""
    told = tell([step.line for step in steps])
    assert len(told) == len(steps)
    for at, (step, answer) in enumerate(zip(steps, told)):
        assert answer == step.wanted, "\n".join(["after", *(before.line for before in steps[: at + 1])])


def test_lives(tell: TellEach) -> None:
    for walk in cases.walks():
        compare(tell, walk.steps)


def compare_at_once(steps: list[Step]) -> None:
    told = told_by("service_cases")([step.line for step in steps])
    assert told == "".join(f"{step.line}  {step.wanted}\n" for step in steps)


def test_at_once() -> None:
    compare_at_once([in_a_line(line) for line in at_once()])


# Most Provisions accept an asynchronous operation.
ACCEPTS = [True] * 6 + [False]


@st.composite
def walks(draw: st.DrawFn, seen: Tally) -> Walk:
    """An order and at most 250 events, most of which are likely to apply; few come after the end."""
    mode = draw(st.sampled_from(["async"] * 10 + ["sync"] * 5 + ["-"]))
    walk = Walk(seen, mode, draw(st.sampled_from(ACCEPTS)), draw(st.booleans()))
    many = draw(st.integers(1, 250))
    picks = iter(draw(st.binary(min_size=2 * many, max_size=2 * many)))
    for which, at in zip(picks, picks):
        if which >= 252:
            events = ["settle"]
        else:
            events = UNSENT + any_event(walk.instance) if which >= 224 else likely(walk.instance)
        walk.happen(events[at % len(events)])
        if walk.instance.state == "gone" and which % 12 == 11:
            break
    return walk


def test_walks(tell: TellEach) -> None:
    seen = Tally()

    @examples(2000)
    @given(walk=walks(seen))
    def walked(walk: Walk) -> None:
        compare(tell, walk.steps)

    walked()
    assert not seen.missing()
    print(sum(seen.applied.values()), "events applied,", sum(seen.skipped.values()), "were skipped")


@st.composite
def alone(draw: st.DrawFn, seen: LoneTally) -> LoneBroker:
    """A broker alone, and at most 120 events, half of which are likely to apply."""
    modes = st.sampled_from(["async"] * 3 + ["sync", "-"])
    broker = LoneBroker(seen, (draw(modes), draw(modes)), draw(st.booleans()))
    many = draw(st.integers(1, 120))
    for pick in draw(st.binary(min_size=many, max_size=many)):
        events = broker.likely()
        broker.happen(events[pick % len(events)])
        if broker.cell.held.tombstone and pick % 8 == 7:
            break
    return broker


def test_broker_alone() -> None:
    seen = LoneTally()

    @examples(1000)
    @given(broker=alone(seen))
    def walked(broker: LoneBroker) -> None:
        compare_at_once([broker.in_a_line()])

    walked()
    assert not seen.missing()
