"""If the line `started` says that drivers name each event, a line that should name its event and doesn't is found."""

from __future__ import annotations

import re

import pytest
from audit.conftest import Audit
from audit.journals import INSTANCE, Journal
from osb_audit.walk import UNNAMED

pytestmark = pytest.mark.slow

NAMED = """P command - state=ordered; P claim wanted/1/provision effect=create; P send r1 provision 1
B arrive 1 r1 provision; B change 1 pending-provision effect=arrive; B create; B look whole
B change 1 ready effect=end_done; B answer 1 201; P hear r1 201; P take 1 ready/1 effect=take
B arrive 2 r1 provision; B answer 2 200 saw=ready effect=arrive
P claim cleaning/2/deprovision effect=remove_send; P send r2 deprovision 2; B arrive 3 r2 deprovision
B answer 3 500 other-error saw=ready; B arrive 4 r2 deprovision; B change 4 ready+deprovision effect=arrive
B look whole; B delete; B look absent; B change 4 tombstone effect=end_done; B answer 4 200; P hear r2 200
P take 2 gone/2 effect=take"""
"""Each line names its event but the order and the request that failed."""
EFFECTS = list(re.finditer(r" effect=([^\s;]+)", NAMED))
WITHOUT = re.sub(r" effect=[^\s;]+", "", NAMED)


def test_all_named(audit: Audit) -> None:
    """A line without an event of its own needs no name."""
    ran = audit(Journal(names_events=True).tell(NAMED))
    assert (ran.status, ran.err, ran.report["differences"]) == (0, "", [])


@pytest.mark.parametrize("at", range(len(EFFECTS)))
def test_one_unnamed(audit: Audit, at: int) -> None:
    """The line is reported."""
    effect = EFFECTS[at]
    ran = audit(Journal(names_events=True).tell(NAMED[: effect.start()] + NAMED[effect.end() :]))
    ((instance, why, model, journal),) = (
        (found["instance"], found["why"], found["model"], found["journal"]) for found in ran.report["differences"]
    )
    assert (ran.status, instance, why, model, journal) == (1, INSTANCE, UNNAMED, "an event", "-")


@pytest.mark.parametrize("names_events, differences", [(False, 0), (True, 1)])
def test_none_named(audit: Audit, names_events: bool, differences: int) -> None:
    """Version 0.3 names no event, and its lines `started` don't say that it does."""
    ran = audit(Journal(names_events=names_events).tell(WITHOUT))
    assert (ran.status, ran.err, len(ran.report["differences"])) == (differences, "", differences)


@pytest.mark.parametrize("side", ["broker", "platform"])
def test_started_with_another_type(audit: Audit, side: str) -> None:
    journal = Journal(names_events=True).tell(NAMED)
    lines = journal.lines[side[0].upper()]
    lines[0] = lines[0].replace('"names_events":true', '"names_events":1')
    ran = audit(journal)
    assert (ran.status, ran.out) == (78, "")
    assert ran.err.endswith(f"line 1: names_events of started of a {side} has to be true or false, and is 1\n")
