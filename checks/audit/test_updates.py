"""The updates of an instance: an audit compares each change of what is kept of them, and each answer, with the tables
of docs/c.md, and goes on with the other requests of the instance. Each slip is named by its line.
"""

from __future__ import annotations

import json
from pathlib import Path
from typing import NamedTuple

import pytest
from audit.conftest import Audit
from audit.journals import (
    ASKED,
    BIND,
    BOUND_BY_OTHERS,
    CREATED,
    INSTANCE,
    PENDING,
    PLANS,
    REMOVE,
    Journal,
    held_text,
    started,
    updates_text,
)
from audit.test_mapping import MADE, events_of, story_of
from osb_audit.broker_side import FAILED, FOREIGN, UNRECORDED
from osb_audit.calls import TOGETHER
from osb_audit.events import Stop, Story
from osb_audit.platform_side import UPDATED
from osb_audit.rules import NoText
from osb_audit.update_rules import updates_in
from osb_audit.updates import ANSWERED, ENDED, FETCHED, IDLE, NO_UPDATE, OF_INSTANCE, OTHERWISE, OWN, UNSEEN, UNWRITTEN
from osb_audit.walk import NAMED, UNNAMED

pytestmark = pytest.mark.usefixtures("library")

BEGUN = f"{CREATED}B arrive 2 u1 update size=5; B update 2 pending/0/sync/sync.5 effect=update_sync; "
"""The work of an Update to other parameters is pending, in 14 lines of the broker."""
TRIED = f"{BEGUN}B look-update absent visit=2; B do-update visit=2; B look-update whole visit=2; "
ENDS = "B update 2 settled/0/sync.5 effect=end-update_done; "
UPDATED_ONCE = f"{TRIED}{ENDS}B answer 2 200; "
"""In 22 lines of the broker."""
FAILS = f"""{BEGUN}B look-update absent visit=2; B begin update visit=2; B end update failed visit=2
B look-update part visit=2; B update 2 failed/0/sync effect=end-update_failed; B answer 2 500 other-error; """
STARTED = f"""{CREATED}B arrive 2 u1 update to=async; B update 2 pending/0/sync/async effect=update_async
B update 2 updating/0/sync/async effect=end-update_done; B answer 2 202; """
"""The operation of an Update to another plan runs, in 16 lines of the broker."""
GROWN = f"{STARTED}B look-update whole; B update 0 settled/0/async effect=finish-update_ok; "


class Rule(NamedTuple):
    """A story that fits, the events of the model that it is, and how many requests are judged by the tables alone."""

    story: str
    events: str
    others: int
    notes: dict[str, int] = {}


RULES = {
    "an update": Rule(UPDATED_ONCE, MADE, 1),
    "an update whose answer a crash has cost": Rule(f"{TRIED}{ENDS}", MADE, 1),
    "an update that was done already": Rule(
        f"{BEGUN}B look-update whole visit=2; B look-update whole visit=2; {ENDS}B answer 2 200", MADE, 1
    ),
    "an update with a number": Rule(
        CREATED + "B arrive 2 u1 update size=5 number=3; B update 2 pending/3/sync/sync.5 effect=update_sync; "
        "B look-update absent visit=2; B do-update visit=2; B look-update whole visit=2; "
        "B update 2 settled/3/sync.5 effect=end-update_done; B answer 2 200; "
        "B arrive 3 u1 update size=5 number=3; B answer 3 200 saw=ready sees=settled/3/sync.5 effect=update_sync; "
        "B arrive 4 u2 update size=7 number=2; "
        "B answer 4 409 other-error saw=ready sees=settled/3/sync.5 effect=update_sync",
        MADE,
        3,
    ),
    "an update that has nothing to do": Rule(
        CREATED + "B arrive 2 u1 update; B answer 2 200 saw=ready effect=update_sync", MADE, 1
    ),
    "an update that has nothing to do, whose number is kept": Rule(
        CREATED + "B arrive 2 u1 update number=4; B update 2 settled/4/sync effect=update_sync; B answer 2 200", MADE, 1
    ),
    "an update that the catalogue rejects": Rule(
        CREATED + "B arrive 2 u1 update to=async number=4; B update 2 settled/4/sync effect=update_rejected-422; "
        "B answer 2 422 other-error",
        MADE,
        1,
    ),
    "an update to a version that the catalogue doesn't have": Rule(
        CREATED + "B arrive 2 u1 update version=7; "
        "B answer 2 422 other-error saw=ready effect=update_maintenance-conflict",
        MADE,
        1,
    ),
    "an update of nothing": Rule(
        "B arrive 1 u1 update size=5; B answer 1 404 other-error saw=- effect=update_sync", "", 1
    ),
    "an update while a creation is pending": Rule(
        f"{PENDING}B arrive 2 u1 update size=5; "
        "B answer 2 422 concurrency-error saw=pending-provision effect=update_sync",
        "create I; arrive I 1",
        1,
    ),
    "an update of another service": Rule(
        CREATED + "B arrive 2 u1 update service=other; B answer 2 400 other-error saw=ready effect=update_sync", MADE, 1
    ),
    "an update that fails and leaves what there was": Rule(
        f"{BEGUN}B look-update absent visit=2; B begin update visit=2; B end update failed visit=2; "
        "B look-update absent visit=2; B update 2 settled/0/sync effect=end-update_before; B answer 2 500 other-error",
        MADE,
        1,
    ),
    "an update that the backend rejects": Rule(
        f"{BEGUN}B look-update absent visit=2; B begin update visit=2; B end update rejected visit=2; "
        "B look-update absent visit=2; B update 2 settled/0/sync effect=end-update_refused-422; "
        "B answer 2 422 other-error",
        MADE,
        1,
    ),
    "an update that fails half-way, and is mended": Rule(
        f"{FAILS}B arrive 3 u2 update size=5; B update 3 mending/0/sync/sync.5 effect=update_sync; "
        "B look-update part visit=3; B do-update visit=3; B look-update whole visit=3; "
        "B update 3 settled/0/sync.5 effect=end-update_done; B answer 3 200",
        MADE,
        2,
    ),
    "an operation, and Polls that name either plan": Rule(
        f"{STARTED}B arrive 3 p1 poll; "
        "B answer 3 200 in-progress saw=ready sees=updating/0/sync/async effect=arrive; "
        "B look-update absent; B do-update; B look-update whole; B update 0 settled/0/async effect=finish-update_ok; "
        "B arrive 4 p2 poll plan=async; B answer 4 200 succeeded effect=arrive",
        MADE,
        3,
    ),
    "an operation that fails, and a Poll": Rule(
        f"{STARTED}B look-update part; B update 0 failed/0/sync effect=finish-update_fail; B arrive 3 p1 poll; "
        "B answer 3 200 failed saw=ready sees=failed/0/sync effect=arrive",
        MADE,
        2,
    ),
    "an Update while another one is under way": Rule(
        f"{STARTED}B arrive 3 u2 update size=5; "
        "B answer 3 422 concurrency-error saw=ready sees=updating/0/sync/async effect=update_sync",
        MADE,
        2,
    ),
    "a deletion that is put off by an update": Rule(
        f"{STARTED}{REMOVE}B arrive 3 r2 deprovision; "
        "B answer 3 422 concurrency-error saw=ready sees=updating/0/sync/async effect=arrive",
        f"{MADE}; remove I; send I; put-off I 2",
        1,
    ),
    "a deletion that another client asks for, by the plan of after": Rule(
        f"{STARTED}B arrive 3 x deprovision plan=async; "
        "B answer 3 422 concurrency-error saw=ready sees=updating/0/sync/async effect=arrive",
        MADE,
        2,
    ),
    "a deletion after an update of the plan": Rule(
        f"{GROWN}{REMOVE}B arrive 3 r2 deprovision; B change 3 ready+deprovision; "
        "B look whole visit=3; B delete visit=3; B look absent visit=3; B change 3 tombstone; B answer 3 200; "
        "P hear r2 200; P take 2 gone/2",
        f"{MADE}; remove I; send I; arrive I 2; work I part; work I absent; end I done; take I 1",
        1,
    ),
    "a deletion after an update that has failed": Rule(
        f"{FAILS}{REMOVE}B arrive 3 r2 deprovision; B change 3 ready+deprovision",
        f"{MADE}; remove I; send I; arrive I 2",
        1,
    ),
    "creations again": Rule(
        f"{UPDATED_ONCE}B arrive 3 r1 provision; B answer 3 409 other-error effect=arrive; "
        "B arrive 4 x provision attributes=5; B answer 4 200 effect=arrive",
        MADE,
        2,
    ),
    "a creation again while an update is under way": Rule(
        f"{STARTED}B arrive 3 x provision; B answer 3 503 other-error effect=arrive", MADE, 2
    ),
    "a creation again after an update that has failed": Rule(
        f"{FAILS}B arrive 3 x provision; B answer 3 500 other-error effect=arrive", MADE, 2
    ),
    "a Bind beside an update": Rule(
        BIND + STARTED.replace(CREATED, "") + "B arrive 3 b1 provision of binding; B answer 3 503 other-error saw=- "
        "sees-instance=ready+updating/0/sync/async effect=put-off of binding",
        f"{MADE}; create B; put-off B 1",
        1,
    ),
    "a Bind that names the plan of before": Rule(
        f"{GROWN}B arrive 3 b1 provision of binding; "
        "B answer 3 503 other-error saw=- sees-instance=ready+settled/0/async effect=put-off of binding",
        MADE,
        2,
    ),
    "a Bind that names the plan of after": Rule(
        f"{GROWN}B arrive 3 b1 provision plan=async of binding; B change 3 pending-provision effect=arrive of binding",
        MADE,
        1,
    ),
    "an Unbind that names the plan of after": Rule(
        BOUND_BY_OTHERS
        + GROWN.replace(CREATED, "")
        + "B arrive 6 x2 deprovision plan=async of binding; B change 6 ready+deprovision @c1 effect=arrive of binding",
        MADE,
        1,
    ),
    "Fetches": Rule(
        f"{CREATED}B arrive 3 f1 fetch; B answer 3 200 empty saw=ready gives=sync/0; "
        + STARTED.replace(CREATED, "")
        + "B arrive 4 f2 fetch; B answer 4 422 concurrency-error saw=ready sees=updating/0/sync/async; "
        "B arrive 5 f3 fetch service=other; B answer 5 400 other-error saw=ready sees=updating/0/sync/async",
        MADE,
        1,
    ),
    "Fetches of what was updated": Rule(
        CREATED + "B arrive 2 u1 update size=5 version=7 number=3; "
        "B update 2 pending/3/sync/sync.5.7 effect=update_sync; B look-update whole visit=2; "
        "B update 2 settled/3/sync.5.7 effect=end-update_done; B answer 2 200; "
        "B arrive 3 f1 fetch; B answer 3 200 empty saw=ready sees=settled/3/sync.5.7 gives=sync.5.7/3",
        MADE,
        1,
    ),
    "a Fetch of nothing": Rule("B arrive 1 f1 fetch; B answer 1 404 other-error saw=-", "", 0),
    "work that another process ends": Rule(
        f"{BEGUN}B look-update absent visit=2; B begin update visit=2; B2 look-update part; B2 do-update; "
        "B2 look-update whole; B2 update 0 settled/0/sync.5 effect=end-update_done",
        MADE,
        0,
    ),
    "an Update whose broker doesn't know how its work has ended": Rule(
        f"{BEGUN}B begin look-update visit=2; B end look-update absent visit=2; B answer 2 500 malformed; "
        "B2 look-update whole; B2 update 0 settled/0/sync.5 effect=end-update_done",
        MADE,
        0,
    ),
    "an Update that fails before it changes anything": Rule(
        f"{CREATED}B arrive 2 u1 update size=5; B answer 2 503 malformed saw=ready", MADE, 0, {FAILED: 1}
    ),
    "a worker that is paused in a call, and has lost its lock": Rule(
        f"{BEGUN}B look-update absent visit=2; B2 look-update absent; B2 do-update; B2 look-update whole; "
        "B2 update 0 settled/0/sync.5 effect=end-update_done; B do-update visit=2",
        MADE,
        0,
    ),
    "calls that fail or don't end, while no update is under way": Rule(
        f"{UPDATED_ONCE}B begin update; B end update failed; B2 begin update", MADE, 1
    ),
    "a doubtful change that nobody has found": Rule(
        f"{TRIED}B update 2 settled/0/sync.5 effect=end-update_done !doubtful; B answer 2 500 malformed; "
        "B2 look-update whole; B2 update 0 settled/0/sync.5 from pending/0/sync/sync.5 effect=end-update_done",
        MADE,
        0,
    ),
}


@pytest.mark.parametrize("name", RULES)
def test_rule(name: str) -> None:
    rule = RULES[name]
    found = story_of(Journal().tell(rule.story))
    assert found.stop is None
    assert events_of(found) == (rule.events.split("; ") if rule.events else [])
    assert found.notes == ({FOREIGN: rule.others} if rule.others else {}) | rule.notes


class Slip(NamedTuple):
    """A story, the line of the broker that shows its slip, and what is reported: why, and perhaps what the model and
    the journal have.
    """

    story: str
    line: int
    why: str
    model: str = ""
    journal: str = ""


def fetched(gives: str) -> Slip:
    """A slip of a Fetch of an instance that was updated to the asynchronous plan."""
    asks = f"B arrive 3 f1 fetch; B answer 3 200 empty saw=ready sees=settled/0/async gives={gives}"
    return Slip(f"{GROWN}{asks}", 20, FETCHED)


STALE = "the request was decided on a row that there never was while it was carried out"
OF_THE_TABLES = "a request changes the row otherwise than the tables"
PENDING_TO = "it is answered while its work is pending"
BUSY = "422-ConcurrencyError"
SLIPS = {
    "other settings than an Update asks for": Slip(
        BEGUN.replace("sync/sync.5", "sync/sync.7"),
        13,
        OTHERWISE,
        updates_text("pending/0/sync/sync.5"),
        updates_text("pending/0/sync/sync.7"),
    ),
    "other settings than those of the Provision": Slip(
        BEGUN.replace("pending/0/sync/", "pending/0/sync.7/"), 13, OTHERWISE, updates_text("pending/0/sync/sync.5")
    ),
    "a number that isn't kept": Slip(BEGUN.replace("size=5", "size=5 number=3"), 13, OTHERWISE),
    "a lower number than the one that is kept": Slip(
        CREATED + "B arrive 2 u1 update number=4; B update 2 settled/4/sync effect=update_sync; B answer 2 200; "
        "B arrive 3 u2 update size=5 number=3; B update 3 pending/3/sync/sync.5 effect=update_sync",
        16,
        OTHERWISE,
        updates_text("settled/4/sync"),
    ),
    "an update that begins while another one is under way": Slip(
        f"{STARTED}B arrive 3 u2 update size=5; B update 3 pending/0/sync/sync.5 effect=update_sync",
        17,
        OTHERWISE,
        updates_text("updating/0/sync/async"),
    ),
    "an update that begins while a deletion is pending": Slip(
        f"{CREATED}{REMOVE}B arrive 2 r2 deprovision; B change 2 ready+deprovision; "
        "B arrive 3 u1 update size=5; B update 3 pending/0/sync/sync.5 effect=update_sync",
        15,
        "a update ends the pending work of a deprovision",
    ),
    "an update of nothing": Slip(
        "B arrive 1 u1 update size=5; B update 1 pending/0/sync/sync.5 effect=update_sync", 3, OTHERWISE, "no change"
    ),
    "a deletion that begins while an update is under way": Slip(
        f"{STARTED}{REMOVE}B arrive 3 r2 deprovision; B change 3 ready+deprovision", 17, OF_THE_TABLES, "ready, -, -"
    ),
    "a deletion that isn't put off by an update": Slip(
        f"{STARTED}{REMOVE}B arrive 3 r2 deprovision; "
        "B answer 3 200 saw=ready sees=updating/0/sync/async effect=arrive",
        17,
        ANSWERED,
        BUSY,
        "200",
    ),
    "an end without a look": Slip(BEGUN + ENDS, 14, UNSEEN, "whole", "-"),
    "an end after a look that has found a part": Slip(
        f"{BEGUN}B look-update absent visit=2; B do-update visit=2; B look-update part visit=2; {ENDS}",
        20,
        UNSEEN,
        "whole",
        "part",
    ),
    "an end by the look of another worker": Slip(TRIED.replace("visit=2", "") + ENDS, 20, UNSEEN, "whole", "-"),
    "an end as before, though it was done": Slip(
        f"{TRIED}B update 2 settled/0/sync effect=end-update_before", 20, UNSEEN, "absent", "whole"
    ),
    "a rejection of what was half done": Slip(
        f"{BEGUN}B look-update part visit=2; B update 2 settled/0/sync effect=end-update_refused-400",
        16,
        UNSEEN,
        "absent",
        "part",
    ),
    "an update that has failed though it was done": Slip(
        f"{TRIED}B update 2 failed/0/sync effect=end-update_failed", 20, UNSEEN, "absent or part", "whole"
    ),
    "an end with other settings": Slip(
        TRIED + ENDS.replace("sync.5", "sync.7"), 20, OTHERWISE, updates_text("settled/0/sync.5")
    ),
    "an end that forgets the number": Slip(
        CREATED + "B arrive 2 u1 update size=5 number=3; B update 2 pending/3/sync/sync.5 effect=update_sync; "
        "B look-update whole visit=2; B update 2 settled/0/sync.5 effect=end-update_done",
        16,
        OTHERWISE,
        updates_text("settled/3/sync.5"),
    ),
    "an end as before that is none": Slip(
        f"{FAILS}B arrive 3 u2 update size=5; B update 3 mending/0/sync/sync.5 effect=update_sync; "
        "B look-update absent visit=3; B update 3 settled/0/sync effect=end-update_before",
        26,
        OTHERWISE,
        updates_text("failed/0/sync"),
    ),
    "an end in another mode than the beginning": Slip(
        f"{TRIED}B update 2 updating/0/sync/sync.5 effect=end-update_done",
        20,
        OTHERWISE,
        updates_text("settled/0/sync.5"),
    ),
    "an end twice": Slip(
        UPDATED_ONCE + "B update 0 settled/0/async effect=end-update_done", 22, ENDED, "settled", "end-update done"
    ),
    "an end that another request makes": Slip(
        f"{TRIED}B arrive 3 u2 update size=5; B look-update whole visit=3; "
        "B update 3 settled/0/sync.5 effect=end-update_done",
        23,
        OWN,
    ),
    "an operation that succeeds without a look": Slip(
        f"{STARTED}B update 0 settled/0/async effect=finish-update_ok", 16, UNSEEN, "whole", "-"
    ),
    "an operation that succeeds half done": Slip(
        f"{STARTED}B look-update part; B update 0 settled/0/async effect=finish-update_ok", 18, UNSEEN, "whole", "part"
    ),
    "an operation that fails though it is done": Slip(
        f"{STARTED}B look-update whole; B update 0 failed/0/sync effect=finish-update_fail",
        18,
        UNSEEN,
        "absent or part",
        "whole",
    ),
    "an operation that ends with the settings of before": Slip(
        f"{STARTED}B look-update whole; B update 0 settled/0/sync effect=finish-update_ok",
        18,
        OTHERWISE,
        updates_text("settled/0/async"),
    ),
    "an operation that a request ends": Slip(
        f"{STARTED}B arrive 3 u2 update size=5; B look-update whole; "
        "B update 3 settled/0/async effect=finish-update_ok",
        19,
        ENDED,
    ),
    "the end of an operation that doesn't run": Slip(
        f"{TRIED}B update 0 settled/0/sync.5 effect=finish-update_ok", 20, ENDED, "pending", "finish-update ok"
    ),
    "an answer while the work is pending": Slip(f"{BEGUN}B answer 2 200", 14, PENDING_TO, "no answer yet", "200"),
    "another answer than that of the end": Slip(f"{TRIED}{ENDS}B answer 2 202", 21, ANSWERED, "200", "202"),
    "another answer than that of an Update that has nothing to do": Slip(
        CREATED + "B arrive 2 u1 update number=4; B update 2 settled/4/sync effect=update_sync; B answer 2 202",
        14,
        ANSWERED,
        "200",
        "202",
    ),
    "an answer in the place of an update": Slip(
        CREATED + "B arrive 2 u1 update size=5; B answer 2 200 saw=ready effect=update_sync", 13, ANSWERED, "-", "200"
    ),
    "another rejection than that of the catalogue": Slip(
        CREATED + "B arrive 2 u1 update to=async; B answer 2 400 other-error saw=ready effect=update_rejected-422",
        13,
        ANSWERED,
        "422-Other",
        "400-Other",
    ),
    "a rejection whose number isn't kept": Slip(
        CREATED + "B arrive 2 u1 update to=async number=4; "
        "B answer 2 422 other-error saw=ready effect=update_rejected-422",
        13,
        UNWRITTEN,
        "a change",
        "no change",
    ),
    "an Update that is decided on what was never kept": Slip(
        CREATED + "B arrive 2 u1 update; B answer 2 200 saw=ready sees=settled/9/sync effect=update_sync",
        13,
        STALE,
        held_text("ready", "sync", INSTANCE),
        held_text("ready", "sync", INSTANCE) + updates_text("settled/9/sync"),
    ),
    "a Poll that says succeeded while the operation runs": Slip(
        f"{STARTED}B arrive 3 p1 poll; B answer 3 200 succeeded saw=ready sees=updating/0/sync/async effect=arrive",
        17,
        ANSWERED,
        "200-in-progress",
        "200-succeeded",
    ),
    "a Poll that says succeeded after a failure": Slip(
        f"{FAILS}B arrive 3 p1 poll; B answer 3 200 succeeded saw=ready sees=failed/0/sync effect=arrive",
        23,
        ANSWERED,
        "200-failed",
        "200-succeeded",
    ),
    "a creation again by the settings of before": Slip(
        f"{UPDATED_ONCE}B arrive 3 x provision; B answer 3 200 effect=arrive", 23, ANSWERED, "409-Other", "200"
    ),
    "a Fetch while the operation runs": Slip(
        f"{STARTED}B arrive 3 f1 fetch; B answer 3 200 saw=ready sees=updating/0/sync/async", 17, ANSWERED, BUSY, "200"
    ),
    "a Fetch that gives the plan of before": fetched("sync.0/0"),
    "a Fetch that gives other parameters": fetched("async.5/0"),
    "a Fetch that gives a version": fetched("async.0.7/0"),
    "a Fetch that gives another number": fetched("async/4"),
    "a Fetch of a plan that isn't sold": Slip(
        f"{CREATED}B arrive 3 f1 fetch service=other; B answer 3 200 saw=ready", 13, ANSWERED, "400-Other", "200"
    ),
    "a Bind that begins while an update is under way": Slip(
        BIND
        + STARTED.replace(CREATED, "")
        + "B arrive 3 b1 provision of binding; B change 3 pending-provision of binding",
        17,
        OF_THE_TABLES,
        "none, -, -",
    ),
    "a Bind that begins with the plan of before": Slip(
        f"{GROWN}B arrive 3 x provision of binding; B change 3 pending-provision of binding", 20, OF_THE_TABLES
    ),
    "an update that is tried while none is under way": Slip(
        f"{UPDATED_ONCE}B do-update", 22, IDLE, "no call", "update"
    ),
    "an update that begins before its commit": Slip(
        CREATED + "B arrive 2 u1 update size=5; B do-update visit=2; "
        "B update 2 pending/0/sync/sync.5 effect=update_sync",
        13,
        IDLE,
    ),
    "updates that are forgotten when a deletion begins": Slip(
        f"{UPDATED_ONCE}{REMOVE}B arrive 3 r2 deprovision; B change 3 ready+deprovision kept=-",
        23,
        OF_INSTANCE,
        updates_text("settled/0/sync.5"),
        "-",
    ),
    "updates that are kept when the instance has ended": Slip(
        f"{UPDATED_ONCE}{REMOVE}B arrive 3 r2 deprovision; B change 3 ready+deprovision; B look whole visit=3; "
        "B delete visit=3; B look absent visit=3; B change 3 tombstone kept=settled/0/sync.5",
        30,
        OF_INSTANCE,
        "-",
        updates_text("settled/0/sync.5"),
    ),
    "updates that change with the instance": Slip(
        f"{UPDATED_ONCE}{REMOVE}B arrive 3 r2 deprovision; B change 3 ready+deprovision kept=settled/0/async",
        23,
        OF_INSTANCE,
    ),
    "updates that aren't as the last change has left them": Slip(
        f"{UPDATED_ONCE}B arrive 3 u2 update size=7; "
        "B update 3 pending/0/sync/sync.7 from settled/0/sync effect=update_sync",
        23,
        "the row isn't as its last change has left it",
    ),
    "a change that names no event": Slip(BEGUN.replace(" effect=update_sync", ""), 13, UNNAMED, "an event", "-"),
    "a change that is named as one of the instance": Slip(BEGUN.replace("update_sync", "arrive"), 13, NAMED),
    "a change that is named as the end of an update": Slip(
        BEGUN.replace("update_sync", "end-update_done"), 13, ENDED, "settled"
    ),
    "an answer that names no event": Slip(
        CREATED + "B arrive 2 u1 update; B answer 2 200 saw=ready", 13, UNNAMED, "an event", "-"
    ),
    "an answer that is named as one to the instance": Slip(
        CREATED + "B arrive 2 u1 update; B answer 2 200 saw=ready effect=arrive", 13, NAMED
    ),
    "a change of the instance that is named as one of updates": Slip(
        f"{ASKED}B change 1 pending-provision effect=update_sync", 3, NAMED
    ),
    "a change without an Update": Slip(
        CREATED + "B update 0 settled/1/sync effect=update_sync", 12, NO_UPDATE, "no change"
    ),
    "an Update that changes the instance": Slip(
        CREATED + "B arrive 2 u1 update; B change 2 tombstone effect=arrive", 13, "update changes what is held"
    ),
    "a Fetch that changes the instance": Slip(
        CREATED + "B arrive 2 f1 fetch; B change 2 tombstone effect=arrive", 13, "fetch changes what is held"
    ),
    "a change by a Poll": Slip(
        CREATED + "B arrive 2 p1 poll; B update 2 settled/1/sync effect=update_sync", 13, NO_UPDATE
    ),
    "a change after the answer": Slip(
        f"{BEGUN}B answer 2 500 malformed; B look-update whole visit=2; {ENDS}",
        17,
        "a request changes the row that was answered before",
    ),
    "an answer before its change": Slip(
        CREATED + "B arrive 2 u1 update number=1; B answer 2 200; B update 2 settled/1/sync effect=update_sync",
        13,
        "it is answered before its change is written",
    ),
}


@pytest.mark.parametrize("name", SLIPS)
def test_slip(name: str) -> None:
    slip = SLIPS[name]
    journal = Journal().tell(slip.story)
    stop = difference_of(story_of(journal))
    assert (list(journal.lines)[stop.position.stretch], stop.position.line + 1) == ("B", slip.line), stop
    assert stop.why == slip.why, stop
    assert slip.model in ("", stop.model) and slip.journal in ("", stop.journal), stop


def difference_of(found: Story) -> Stop:
    """The difference of a story."""
    assert found.stop is not None and found.stop.is_difference, found.stop
    return found.stop


AT_ONCE = TRIED.replace("B ", "B7 ")
"""The locks of B7 and B8 can't be lost."""
WORKERS = {
    "two workers at once": (
        AT_ONCE.replace(
            "B7 do-update visit=2", "B7 begin update visit=2; B8 begin look-update; B7 end update done visit=2"
        ),
        TOGETHER,
    ),
    "a worker that goes on after another one has ended the update": (
        f"{AT_ONCE}B8 look-update whole; B8 update 0 settled/0/sync.5 effect=end-update_done; B7 do-update visit=2",
        IDLE,
    ),
}


@pytest.mark.parametrize("name", WORKERS)
def test_workers(name: str) -> None:
    """What is allowed if a lock can be lost is a slip if it can't."""
    story, why = WORKERS[name]
    assert story_of(Journal().tell(story)).stop is None
    stop = difference_of(story_of(Journal(of_broker=started(locks_can_be_lost=False)).tell(story)))
    assert stop.why == why, stop


VERSIONS = {"named": ("version=7", "sync.0.7", None), "of none": ("", "sync.0.7", OTHERWISE)}


@pytest.mark.parametrize("name", VERSIONS)
def test_version_of_the_provision(name: str) -> None:
    """The first settings have the version that the Provision has named. An older journal doesn't say which."""
    names, settings, why = VERSIONS[name]
    story = CREATED.replace("arrive 1 r1 provision", f"arrive 1 r1 provision {names}")
    story = story.replace("pending-provision", "pending-provision effect=arrive")
    story = story.replace("change 1 ready", "change 1 ready effect=end_done")
    asks = f"B arrive 2 u1 update size=5; B update 2 pending/0/{settings}/sync.5.7 effect=update_sync"
    assert story_of(Journal().tell(f"{story}{asks}")).stop is None
    stop = story_of(Journal(names_events=True).tell(f"{story}{asks}")).stop
    assert (stop.why if stop else None) == why


def test_versions_that_nobody_knows() -> None:
    """In an older journal, a Provision may have named what an Update that has nothing to do names."""
    asks = f"{CREATED}B arrive 2 u1 update version=7; B answer 2 200 saw=ready effect=update_sync"
    assert story_of(Journal().tell(asks)).stop is None


def test_fetches_in_an_older_journal() -> None:
    """It doesn't say whether instances can be fetched."""
    asks = f"{CREATED}B arrive 2 f1 fetch; B answer 2 404 other-error; B arrive 3 f2 fetch; B answer 3 200"
    assert story_of(Journal(of_broker=started(fetchable=None)).tell(asks)).stop is None
    stop = difference_of(story_of(Journal(of_broker=started(fetchable=False)).tell(asks)))
    assert (stop.model, stop.journal) == ("404-Other", "200"), stop


def test_a_fetch_without_parameters() -> None:
    """A broker whose parameters are secret doesn't answer with them."""
    asks = f"{UPDATED_ONCE}B arrive 3 f1 fetch; B answer 3 200 saw=ready sees=settled/0/sync.5 gives=sync.5/0"
    journal = Journal().tell(asks)
    last = json.loads(journal.lines["B"][-1])
    for parameters, is_different in (("5" * 64, False), (None, False), ("7" * 64, True)):
        journal.lines["B"][-1] = json.dumps(
            {name: value for name, value in {**last, "parameters": parameters}.items() if value is not None}
        )
        assert (story_of(journal).stop is not None) == is_different, parameters


def test_updates_of_a_platform() -> None:
    """What a platform records of updates isn't judged. What osb-storm sends itself is judged by the tables."""
    asks = f"{CREATED}P send u1 update 2; B arrive 2 u1 update; B answer 2 200 saw=ready effect=update_sync"
    stop = story_of(Journal().tell(f"{asks}; P claim polling/9/poll from ready/3")).stop
    assert stop is not None and (stop.is_difference, stop.why) == (False, UPDATED), stop
    stop = difference_of(story_of(Journal().tell(asks.replace("2 200", "2 202"))))
    assert (stop.why, stop.model, stop.journal) == (ANSWERED, "200", "202"), stop
    found = story_of(Journal().tell(asks.replace("update 2", "update 0")))
    assert (found.stop, found.notes) == (None, {UNRECORDED: 1})


def test_a_text_that_is_none() -> None:
    """What is kept of updates is the text of the library, or there is a difference."""
    journal = Journal().tell(BEGUN)
    journal.lines["B"][-1] = journal.lines["B"][-1].replace("pending", "waiting")
    stop = difference_of(story_of(journal))
    assert "it is no text of what is kept of updates" in stop.why, stop


@pytest.mark.parametrize("text", ["x", "{}", "\ud800", "[" * 10_000, updates_text("settled/0/sync") + " x"])
def test_texts_that_are_none(text: str) -> None:
    with pytest.raises(NoText):
        updates_in(text)


def test_ids_and_digests_that_are_none() -> None:
    """A plan of an Update that is no GUID, and attributes of a row that are no digest, are differences."""
    journal = Journal().tell(STARTED)
    journal.lines["B"][11] = journal.lines["B"][11].replace(PLANS["async"], "large")
    assert "it is no number of an id: large" in difference_of(story_of(journal)).why
    journal = Journal().tell(BEGUN)
    for at, line in enumerate(journal.lines["B"]):
        journal.lines["B"][at] = line.replace(f'\\"attributes\\":\\"{"0" * 64}', '\\"attributes\\":\\"x')
        journal.lines["B"][at] = journal.lines["B"][at].replace(f'"attributes":"{"0" * 64}', '"attributes":"x')
    assert "it is no digest of attributes: x" in difference_of(story_of(journal)).why


@pytest.mark.slow
def test_program(audit: Audit) -> None:
    """The report of osb-audit names the first wrong line, and nothing else."""
    journal = Journal().tell(SLIPS["an end without a look"].story)
    ran = audit(journal)
    (found,) = ran.report["differences"]
    assert (ran.status, found["line"], found["why"], found["journal"]) == (1, 14, UNSEEN, "-"), ran
    assert found["file"].endswith("broker-B.jsonl"), found


@pytest.mark.slow
def test_all_that_fits(audit: Audit, tmp_path: Path) -> None:
    """Over what fits, the program finds no difference either: the events are those of the model."""
    for number, rule in enumerate(RULES.values(), 0x100):
        folder = tmp_path / f"{number}"
        folder.mkdir()
        Journal(instance=f"{INSTANCE[:-3]}{number:03x}", time=number * 10**12).tell(rule.story).files(folder)
    ran = audit(*sorted(tmp_path.iterdir()), options=("--json", "--jobs", "1", "--unjudged", "100"))
    assert (ran.report["differences"], ran.report["disagreements"]) == ([], []), ran
    assert ran.report["instances"] == len(RULES), ran
