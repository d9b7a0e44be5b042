"""What the model doesn't judge any more, since a request has changed it that no journal of a platform has: changes and
answers of brokers are still compared with the tables. So the journal of a broker alone shows differences.
"""

from __future__ import annotations

from typing import NamedTuple

import pytest
from audit.conftest import Audit
from audit.journals import CREATED, INSTANCE, Journal, started, updates_text
from audit.test_mapping import MADE, events_of, story_of
from osb_audit.broker_side import FAILED
from osb_audit.updates import ANSWERED, OTHERWISE

pytestmark = pytest.mark.usefixtures("library")

LEFT = "a request has changed it that no journal of a platform has"
PENDING = "B arrive 1 x1 provision; B change 1 pending-provision; "
READY = f"{PENDING}B look absent; B create; B look whole; B change 1 ready; "
ALONE = f"{READY}B answer 1 201; "
"""Another client creates the instance, in 11 lines."""
DELETES = "B arrive 2 x2 deprovision; B change 2 ready+deprovision; B look whole; B delete; B look absent; "
BOUND = f"""{ALONE}B arrive 3 x3 provision of binding; B change 3 pending-provision of binding
B create @c1 of binding; B look whole of binding; B change 3 ready @c1 of binding; """
"""In 18 lines."""
UPDATES = "B arrive 4 u1 update size=5; B update 4 pending/0/sync/sync.5 effect=update_sync; "
STORIES = {
    "a whole life": f"{ALONE}B arrive 3 p1 poll; B answer 3 200 succeeded; {DELETES}B change 2 tombstone; "
    "B answer 2 200; B arrive 4 x4 deprovision; B answer 4 410 other-error",
    "a creation that fails": f"{PENDING}B look absent; B change 1 tombstone effect=end_refused-400; "
    "B answer 1 400 other-error",
    "a binding": f"{BOUND}B answer 3 201 of binding; B arrive 2 x2 deprovision; B answer 2 422 concurrency-error",
    "an update": f"{ALONE}{UPDATES}B arrive 2 x2 deprovision; B answer 2 422 concurrency-error; "
    "B look-update whole visit=4; B update 4 settled/0/sync.5 effect=end-update_done; B answer 4 200",
    "a broker that fails": f"{READY}B answer 1 500 malformed; B arrive 2 p1 poll; B answer 2 503 malformed",
}


@pytest.mark.parametrize("name", STORIES)
def test_story(name: str) -> None:
    found = story_of(Journal().tell(STORIES[name]))
    assert found.stop is not None and (found.stop.is_difference, found.stop.why) == (False, LEFT), found.stop
    assert (found.stop.position.line, found.events, found.disagreements, found.notes.keys() - {FAILED}) == (
        2,
        [],
        [],
        set(),
    )


class Slip(NamedTuple):
    """A story, the line that shows its slip, and what is reported."""

    story: str
    line: int
    why: str
    model: str = ""
    journal: str = ""
    plan: str = "sync"


OF_THE_TABLES = "a request changes the row otherwise than the tables"
NO_END = "no end of the pending work leaves this"
SLIPS = {
    "another answer than that of the end": Slip(f"{READY}B answer 1 200", 11, ANSWERED, "201", "200"),
    "another answer than that of a change at once": Slip(
        "B arrive 1 x1 provision; B change 1 waiting; B answer 1 200", 4, ANSWERED, "202", "200", "async"
    ),
    "another answer than that of the row": Slip(
        f"{ALONE}B arrive 2 p1 poll; B answer 2 200 in-progress", 13, ANSWERED, "200-succeeded", "200-in-progress"
    ),
    "an end that leaves another row": Slip(f"{PENDING}B look whole; B change 1 making", 6, NO_END, "another row"),
    "an end that loses the tombstone": Slip(f"{ALONE}{DELETES}B change 2 -", 20, NO_END),
    "an end that is named, and loses the tombstone": Slip(f"{ALONE}{DELETES}B change 2 - effect=end_done", 20, NO_END),
    "a creation in spite of a tombstone": Slip(
        f"{ALONE}{DELETES}B change 2 tombstone; B answer 2 200; B arrive 3 x1 provision; B change 3 pending-provision",
        23,
        OF_THE_TABLES,
    ),
    "a change without a request": Slip(
        f"{ALONE}B change 0 tombstone", 12, "no request and no end of work makes this change", "no change"
    ),
    "a deletion beside a binding": Slip(
        f"{BOUND}B answer 3 201 of binding; B arrive 2 x2 deprovision; B change 2 ready+deprovision",
        21,
        OF_THE_TABLES,
        "ready, -, -",
    ),
    "another answer about a binding": Slip(f"{BOUND}B answer 3 200 of binding", 19, ANSWERED, "201", "200"),
    "an update with other settings": Slip(
        ALONE + UPDATES.replace("sync/sync.5", "sync/async"), 13, OTHERWISE, updates_text("pending/0/sync/sync.5")
    ),
    "a deletion while an update is under way": Slip(
        f"{ALONE}{UPDATES}B arrive 2 x2 deprovision; B change 2 ready+deprovision", 15, OF_THE_TABLES, "ready, -, -"
    ),
}


@pytest.mark.parametrize("name", SLIPS)
def test_slip(name: str) -> None:
    slip = SLIPS[name]
    stop = story_of(Journal(slip.plan, of_broker=started(slip.plan == "async")).tell(slip.story)).stop
    assert stop is not None and stop.is_difference, stop
    assert (stop.position.line + 1, stop.why) == (slip.line, slip.why), stop
    assert slip.model in ("", stop.model) and slip.journal in ("", stop.journal), stop


def test_a_platform_that_goes_on() -> None:
    """Its requests are judged by the tables as well, and what it records isn't judged."""
    left = f"{CREATED}{DELETES}B change 2 tombstone; B answer 2 200; P claim cleaning/9/deprovision from unsettled/7; "
    found = story_of(Journal().tell(f"{left}B arrive 3 r1 provision; B answer 3 409 other-error"))
    assert found.stop is not None and (found.stop.is_difference, found.stop.why) == (False, LEFT), found.stop
    assert (events_of(found), found.disagreements) == (MADE.split("; "), [])
    stop = story_of(Journal().tell(f"{left}B arrive 3 r1 provision; B answer 3 200")).stop
    assert stop is not None and (stop.why, stop.model, stop.journal) == (ANSWERED, "409-Other", "200"), stop


def test_answers_to_others_of_a_life_that_the_model_has() -> None:
    """They are compared, too."""
    stop = story_of(
        Journal().tell(f"{CREATED}B arrive 3 x3 provision of binding; B answer 3 200 saw=- of binding")
    ).stop
    assert stop is not None and (stop.is_difference, stop.why) == (True, ANSWERED), stop


@pytest.mark.slow
def test_program(audit: Audit) -> None:
    """The report names the line. Without a difference, nothing was judged by the model."""
    ran = audit(Journal().tell(SLIPS["another answer than that of the end"].story))
    (found,) = ran.report["differences"]
    assert (ran.status, found["instance"], found["line"], found["why"]) == (1, INSTANCE, 11, ANSWERED), ran
    ran = audit(Journal().tell(STORIES["a whole life"]))
    assert (ran.status, ran.report["differences"], ran.report["unjudged"][0]["why"]) == (78, [], LEFT), ran
