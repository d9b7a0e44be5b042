"""Which events of the model the lines of a journal are: each rule of docs/audit.md, by a story written by hand.

In the events, I stands for the instance and B for its binding.
"""

from __future__ import annotations

import json
from typing import NamedTuple

import pytest
from audit.journals import (
    ASKED,
    BIND,
    BINDING,
    BOUND,
    BOUND_BY_OTHERS,
    CREATED,
    DELETING,
    EXPIRED,
    GIVEN_UP,
    INSTANCE,
    PENDING,
    PLANS,
    POLLING,
    REMOVE,
    REMOVED,
    SENT,
    SERVICE,
    Journal,
    started,
)
from osb_audit.broker_side import ALTERED, FAILED, FOREIGN, UNCOMPARED, UNRECORDED
from osb_audit.events import Story
from osb_audit.lines import Position, read
from osb_audit.platform_side import BRIDGED, LATE, NOT_COME
from osb_audit.settings import settings_in
from osb_audit.story import story

pytestmark = pytest.mark.usefixtures("library")


def story_of(journal: Journal) -> Story:
    lines, settings, naming = [], {}, set()
    for at, texts in enumerate(journal.lines.values()):
        for number, text in enumerate(texts):
            members = json.loads(text)
            if members["event"] != "started":
                lines.append(read(Position(at, number), text.encode()))
            elif members["side"] == "broker":
                settings[members["process"]] = settings_in(text.encode())
                naming |= {members["process"]} if members.get("names_events") else set()
    return story(INSTANCE, lines, settings, {}, (), naming)


def short(text: str) -> str:
    return text.replace(f"{INSTANCE}/{BINDING}", "B").replace(INSTANCE, "I")


def events_of(found: Story) -> list[str]:
    """The events behind the orders."""
    return [short(event.text) for event in found.events if not event.text.startswith(("instance ", "binding "))]


MADE = "create I; arrive I 1; work I part; work I whole; end I done; take I 0"
BINDING_MADE = f"{MADE}; create B; arrive B 1; work B part; issue B 1; end B done; take B 0"
BEGUN = "create I; arrive I 1; end I done; take I 0; send I"
POLLED = "create I; arrive I 1; take I 0; send I; "
WAITING = ASKED + "B change 1 waiting; B answer 1 202; "
ASYNC_BIND = f"""{BIND}
B arrive 2 b1 provision of binding; B change 2 pending-provision of binding; B change 2 making of binding
B answer 2 202 of binding; P hear b1 202 of binding; P take 1 polling/1 of binding; P claim polling/2/poll of binding
P send b2 poll 2 of binding; B create @c1 of binding; B look whole of binding; B change 0 ready @c1 of binding
B arrive 3 b2 poll of binding; B answer 3 200 succeeded of binding; P hear b2 200 succeeded of binding
P send b3 fetch of binding; """
ASYNC_BOUND = (
    f"{MADE}; create B; arrive B 1; end B done; take B 0; send B; work B part; issue B 1; finish B ok; arrive B 2"
)


class Rule(NamedTuple):
    """A story, the events that it is, and how brokers work."""

    story: str
    events: str
    plan: str = "sync"
    first_poll: bool = False
    stop: str | None = None
    binding: str = "sync"
    retrievable: bool = True
    locks_can_be_lost: bool = True


# A broker is paused in a call, and has lost its lock when it goes on: B2 has done the work. What the call says is old.
LOOKED = f"{DELETING}B look whole visit=2; "
TAKEN_OVER = "B2 begin delete; B2 end delete done; B2 look absent; B2 change 0 tombstone from ready+deprovision; "
DELETED = f"{MADE}; remove I; send I; arrive I 2; "
LATE_CALLS = {
    "a look that is late, of a worker that was killed before it": Rule(
        f"{LOOKED}B begin delete visit=2; P lose r2; P take 2 cleaning/2; B3 begin look; "
        "P claim cleaning/3/deprovision; P send r3 deprovision 3; B2 arrive 1 r3 deprovision; "
        "B2 answer 1 422 concurrency-error; B2 look part; B2 begin delete; B2 end delete failed; B2 look part; "
        f"{TAKEN_OVER}B3 end look part; B3 begin delete; B3 end delete failed; P hear r3 422 concurrency-error; "
        "P take 3 cleaning/3; P claim cleaning/4/deprovision; P send r4 deprovision 4; B2 arrive 2 r4 deprovision; "
        "B2 answer 2 410 other-error; P hear r4 410 other-error; P take 4 gone/4",
        DELETED
        + "work I part; timeout I; send I; arrive I 3; work I part; work I part; work I absent; crash I broker; "
        "end I done; take I 1; send I; arrive I 4; take I 2",
    ),
    "a look that is late, of what was there before a creation": Rule(
        f"{PENDING}B begin look visit=1; B2 look absent; B2 create; B2 look whole; "
        "B2 change 0 ready from pending-provision; B end look absent visit=1; B answer 1 500 other-error",
        "create I; arrive I 1; work I part; work I whole; end I done",
    ),
    "a look that is late, of what was whole before a deletion": Rule(
        f"{LOOKED}B begin look visit=2; {TAKEN_OVER}B end look whole visit=2; B answer 2 500 other-error",
        DELETED + "work I part; work I absent; end I done",
    ),
    "a look that is late, and found what a killed broker had not yet deleted": Rule(
        f"{LOOKED}B begin delete visit=2; B3 begin look; B2 look part; {TAKEN_OVER}B3 end look whole",
        DELETED + "work I part; work I part; work I absent; crash I broker; end I done",
    ),
    "a creation whose line is late": Rule(
        f"{PENDING}B begin create visit=1; B2 look whole; B2 change 0 ready from pending-provision; "
        "B end create done visit=1; B answer 1 500 other-error",
        "create I; arrive I 1; work I part; work I whole; end I done",
    ),
    "a creation whose line is late, of what is deleted meanwhile": Rule(
        f"{PENDING}B begin create visit=1; B2 look whole; B2 change 0 ready from pending-provision; {GIVEN_UP}"
        "B2 arrive 1 r2 deprovision; B2 change 1 ready+deprovision; B2 delete visit=1; B end create done visit=1; "
        "B2 look absent visit=1; B2 change 1 tombstone; B2 answer 1 200; B answer 1 500 other-error",
        "create I; arrive I 1; work I part; work I whole; end I done; timeout I; send I; arrive I 2; work I part; "
        "work I absent; end I done",
    ),
    "a deletion whose line is late": Rule(
        f"{LOOKED}B begin delete visit=2; B2 look absent; B2 change 0 tombstone from ready+deprovision; "
        "B end delete done visit=2; B answer 2 500 other-error",
        DELETED + "work I part; work I absent; end I done",
    ),
    "credentials that are read late": Rule(
        f"{BIND}B arrive 2 b1 provision of binding; B change 2 pending-provision of binding; "
        "B2 create @c1 of binding; B begin credentials visit=2 of binding; B2 look whole of binding; "
        "B2 delete of binding; B2 create @c2 of binding; B2 look whole of binding; B2 change 0 ready @c2 of binding; "
        "B end credentials done visit=2 @c1 of binding; B answer 2 500 other-error of binding",
        f"{MADE}; create B; arrive B 1; work B part; issue B 1; work B part; work B absent; work B part; issue B 2; "
        "end B done",
    ),
    "a call that begins late, after whoever ends the work has looked": Rule(
        f"{LOOKED}B2 look whole; B2 delete; B2 look absent; B begin delete visit=2; "
        "B2 change 0 tombstone from ready+deprovision; B end delete failed visit=2; B answer 2 500 other-error",
        DELETED + "work I part; work I absent; work I part; work I absent; end I done",
    ),
    "a deletion that is late, and finds nothing": Rule(
        f"{LOOKED}{TAKEN_OVER}B begin delete visit=2; B end delete done visit=2; B look absent visit=2; "
        "B answer 2 500 other-error",
        DELETED + "work I part; work I absent; end I done",
    ),
    "a call that is late, while its process changes the row for another request": Rule(
        f"{PENDING}B look absent visit=1; B2 create; B2 look whole; B2 change 0 ready from pending-provision; "
        f"B begin create visit=1; {GIVEN_UP}B arrive 2 r2 deprovision; B change 2 ready+deprovision; "
        "B end create failed visit=1; B look whole visit=1; B answer 1 500 other-error",
        "create I; arrive I 1; work I part; work I whole; end I done; timeout I; send I; arrive I 2",
    ),
}

RULES = {
    **LATE_CALLS,
    "creation": Rule(CREATED, MADE),
    "removal": Rule(REMOVED, f"{MADE}; remove I; send I; arrive I 2; work I part; work I absent; end I done; take I 1"),
    "binding": Rule(BOUND, BINDING_MADE),
    "an operation": Rule(
        POLLING + "B create; B look whole; B change 0 ready; B arrive 2 r2 poll; B answer 2 200 succeeded",
        f"{BEGUN}; work I part; work I whole; finish I ok; arrive I 2",
        "async",
    ),
    "an operation that fails": Rule(POLLING + "B change 0 failed", f"{BEGUN}; finish I fail", "async"),
    "the first Poll": Rule(
        f"{WAITING}P hear r1 202; P take 1 polling/1; P claim polling/2/poll; P send r2 poll 2; B arrive 2 r2 poll; "
        "B change 2 making; B answer 2 200 in-progress",
        POLLED + "arrive I 2",
        "async",
        True,
    ),
    "no first Poll": Rule(WAITING + "B change 0 failed", "create I; arrive I 1; give-up-waiting I", "async", True),
    "a deletion that overtakes": Rule(
        f"{SENT}{GIVEN_UP}B arrive 1 r2 deprovision; B change 1 tombstone; B answer 1 410 other-error; "
        "P hear r2 410 other-error; P take 2 gone/2; B arrive 2 r1 provision; B answer 2 409 other-error",
        "create I; timeout I; send I; arrive I 2; take I 0; arrive I 1",
    ),
    "a request while work is pending": Rule(
        f"{PENDING}{GIVEN_UP}B arrive 2 r2 deprovision; B answer 2 422 concurrency-error",
        "create I; arrive I 1; timeout I; send I; arrive I 2",
    ),
    "a request that repeats": Rule(CREATED + "B arrive 2 r1 provision; B answer 2 200", f"{MADE}; arrive I 1"),
    "a broker that is killed": Rule(
        PENDING + "B begin create; B2 look absent; B2 create; B2 change 0 ready",
        "create I; arrive I 1; work I part; work I absent; work I part; work I whole; crash I broker; end I done",
    ),
    "work that another process does": Rule(
        PENDING + "B2 create; B2 change 0 ready; B answer 1 200",
        "create I; arrive I 1; work I part; work I whole; end I done; arrive I 1",
    ),
    "an unknown outcome": Rule(
        PENDING + "B begin create; B answer 1 500 other-error; B create; B change 0 ready",
        "create I; arrive I 1; work I part; end I unknown; work I part; work I whole; end I done",
    ),
    "an answer 503 while work is pending": Rule(
        PENDING + "B answer 1 503 other-error", "create I; arrive I 1; crash I broker"
    ),
    "a refusal": Rule(
        f"{PENDING}B begin create; B end create rejected; B look absent; B change 1 tombstone; "
        "B answer 1 422 other-error",
        "create I; arrive I 1; work I part; work I absent; end I refused-422",
    ),
    "a creation that fails": Rule(
        PENDING + "B begin create; B end create failed; B look absent; B change 1 -; B answer 1 500 other-error",
        "create I; arrive I 1; work I part; work I absent; end I before",
    ),
    "an answer 5xx without anything": Rule(
        ASKED + "B answer 1 503 other-error; P hear r1 503 other-error; P take 1 cleaning/1", "create I; gateway I 503"
    ),
    "a garbled answer": Rule(
        CREATED.replace("P hear r1 201; P take 1 ready/1", "P hear r1 201 malformed; P take 1 cleaning/1"),
        MADE.replace("take I 0", "garble I 0"),
    ),
    "a gateway's answer": Rule(
        SENT + "P hear r1 502 malformed; P take 1 cleaning/1; B arrive 1 r1 provision; B answer 1 500 other-error",
        "create I; gateway I 502",
    ),
    "a gateway's answer that says nothing": Rule(
        REMOVED.replace("P hear r2 200; P take 2 gone/2", "P hear r2 404 malformed; P take 2 cleaning/2"),
        f"{MADE}; remove I; send I; arrive I 2; work I part; work I absent; end I done; timeout I",
    ),
    "a platform that is killed": Rule(
        PENDING + "P2 claim cleaning/2/deprovision", "create I; arrive I 1; crash I platform; timeout I; send I"
    ),
    "polling that takes too long": Rule(
        POLLING + "P lose r2; P take 2 polling/2; P claim cleaning/3/deprovision",
        f"{BEGUN}; timeout I; expire I; send I",
        "async",
    ),
    "a change that was undone": Rule(
        f"{PENDING}B create; B change 1 ready !undone; B answer 1 500 other-error; "
        "B change 0 ready from pending-provision",
        "create I; arrive I 1; work I part; work I whole; end I unknown; end I done",
    ),
    "a doubtful change that the next one shows": Rule(
        f"{PENDING}B create; B change 1 ready !doubtful; B answer 1 503 other-error; P hear r1 503 other-error; "
        f"P take 1 cleaning/1; {REMOVE}B arrive 2 r2 deprovision; B change 2 ready+deprovision",
        "create I; arrive I 1; work I part; work I whole; end I done; gateway I 503; send I; arrive I 2",
    ),
    "a doubtful change that the next one doesn't show": Rule(
        f"{PENDING}B create; B change 1 ready !doubtful; B answer 1 503 other-error; B2 look whole; "
        "B2 change 0 ready from pending-provision",
        "create I; arrive I 1; work I part; work I whole; crash I broker; end I done",
    ),
    "a doubtful change after another process has gone on": Rule(
        f"{SENT}P2 claim cleaning/2/deprovision; P take 1 cleaning/1 from wanted/1/provision !doubtful; P2 lose r2; "
        "P2 take 2 cleaning/2 from cleaning/2/deprovision; B arrive 9 x poll",
        "create I; crash I platform; timeout I; send I; timeout I",
    ),
    "a doubtful change that another process has made before": Rule(
        f"{PENDING}{GIVEN_UP}P2 claim cleaning/2/deprovision from cleaning/1 !doubtful; P lose r2; P take 2 cleaning/2",
        "create I; arrive I 1; timeout I; send I; timeout I",
    ),
    "a call of a worker that was paused, and whose lock was gone": Rule(
        f"{PENDING}B look absent; B2 create; B2 look whole; B2 change 0 ready from pending-provision; B begin create; "
        "B end create failed; B answer 1 500 other-error",
        "create I; arrive I 1; work I part; work I whole; end I done",
    ),
    "a doubtful change behind the last one that counts": Rule(
        f"{PENDING}B create; B change 1 ready; B answer 1 201; P hear r1 201; P take 1 ready/1; "
        "P2 claim cleaning/1 from wanted/1/provision !doubtful",
        MADE,
    ),
    "a doubtful change that is the last one": Rule(
        PENDING + "B create; B change 1 ready !doubtful", "create I; arrive I 1; work I part; work I whole"
    ),
    "a doubtful change that a request has seen": Rule(
        f"{PENDING}B create; B change 1 ready !doubtful; B answer 1 503 other-error; B arrive 2 r1 provision; "
        "B answer 2 200 saw=ready",
        "create I; arrive I 1; work I part; work I whole; end I done; arrive I 1",
    ),
    "a doubtful change that its own request has read again": Rule(
        f"{PENDING}B create; B look whole; B change 1 ready !doubtful; B answer 1 201 saw=ready; P hear r1 201; "
        "P take 1 ready/1",
        MADE,
    ),
    "a kill before a commit": Rule(
        PENDING + "B create; B change 1 ready; B2 look whole; B2 change 0 ready from pending-provision",
        "create I; arrive I 1; work I part; work I whole; crash I broker; end I done",
    ),
    "a kill before a commit, once another request has arrived": Rule(
        f"{PENDING}B create; B change 1 ready; {GIVEN_UP}B arrive 2 r2 deprovision; B2 look whole; "
        "B2 change 0 ready from pending-provision",
        "create I; arrive I 1; work I part; work I whole; timeout I; send I; crash I broker; end I done",
    ),
    "a kill before a commit, once another request has failed": Rule(
        f"{PENDING}B create; B change 1 ready; {GIVEN_UP}B arrive 2 r2 deprovision; B answer 2 503 other-error; "
        "B2 look whole; B2 change 0 ready from pending-provision",
        "create I; arrive I 1; work I part; work I whole; timeout I; send I; crash I broker; end I done",
    ),
    "a kill after a commit": Rule(
        f"{PENDING}B create; B change 1 ready; {GIVEN_UP}B2 arrive 1 r2 deprovision; B2 change 1 ready+deprovision",
        "create I; arrive I 1; work I part; work I whole; end I done; timeout I; send I; arrive I 2",
    ),
    "a change that a request hasn't seen": Rule(
        f"{POLLING}B create; B look whole; B change 0 ready; B arrive 2 r2 poll; "
        "B answer 2 200 in-progress saw=making; P hear r2 200 in-progress; P take 2 polling/2; "
        "P claim polling/3/poll; P send r3 poll 3; B arrive 3 r3 poll; B answer 3 200 succeeded saw=ready",
        f"{BEGUN}; work I part; work I whole; arrive I 2; finish I ok; take I 1; send I; arrive I 3",
        "async",
    ),
    "two changes of one commit that a request hasn't seen": Rule(
        f"{POLLING}{EXPIRED}B create; B look whole; B arrive 3 r3 deprovision; B change 0 ready; "
        "B change 3 ready+deprovision; B arrive 2 r2 poll; B answer 2 200 in-progress saw=making",
        f"{BEGUN}; timeout I; expire I; send I; work I part; work I whole; arrive I 2; finish I ok; arrive I 3",
        "async",
    ),
    "a change that is still to be committed, and that a request hasn't seen": Rule(
        f"{POLLING}B create; B look whole; B change 0 ready; B arrive 2 r2 poll committed=2; "
        "B answer 2 200 in-progress saw=making",
        f"{BEGUN}; work I part; work I whole; arrive I 2; finish I ok",
        "async",
    ),
    "a change that nobody knows whether it is committed, and that a request hasn't seen": Rule(
        f"{POLLING}B create; B look whole; B change 0 ready !doubtful; B arrive 2 r2 poll committed=3; "
        "B answer 2 200 in-progress saw=making; B arrive 3 r2 poll committed=3; B answer 3 200 succeeded saw=ready",
        f"{BEGUN}; work I part; work I whole; arrive I 2; finish I ok; arrive I 2",
        "async",
    ),
    "a change of another process that a request hasn't seen": Rule(
        f"{POLLING}B create; B look whole; B change 0 ready; B2 arrive 2 r2 poll committed=9; "
        "B2 answer 2 200 in-progress saw=making",
        f"{BEGUN}; work I part; work I whole; arrive I 2; finish I ok",
        "async",
    ),
    "a worker after another one that was killed, with locks that can't be lost": Rule(
        PENDING + "B begin create visit=1; B2 look absent; B2 create; B2 look whole; B2 change 0 ready",
        "create I; arrive I 1; work I part; work I absent; work I part; work I whole; crash I broker; end I done",
        locks_can_be_lost=False,
    ),
    "workers one after the other, with locks that can't be lost": Rule(
        f"{PENDING}B look absent visit=1; B begin create visit=1; B end create failed visit=1; B look absent visit=1; "
        "B answer 1 500 other-error; B2 look absent; B2 create; B look whole; B2 look whole; B2 change 0 ready",
        "create I; arrive I 1; work I part; work I absent; end I unknown; work I part; work I whole; end I done",
        locks_can_be_lost=False,
    ),
    "a change while a request waits": Rule(
        POLLING + "B arrive 2 r2 poll; B create; B look whole; B change 0 ready; B answer 2 200 succeeded saw=ready",
        f"{BEGUN}; work I part; work I whole; finish I ok; arrive I 2",
        "async",
    ),
    "a request between two changes": Rule(
        f"{POLLING}B arrive 2 r2 poll; B create; B look whole; B change 0 ready; {EXPIRED}B arrive 3 r3 deprovision; "
        "B change 3 ready+deprovision; B answer 2 200 succeeded saw=ready",
        f"{BEGUN}; work I part; work I whole; finish I ok; arrive I 2; timeout I; expire I; send I; arrive I 3",
        "async",
    ),
    "a Bind that is put off": Rule(
        f"{BIND}{REMOVE}B arrive 2 r2 deprovision; B change 2 ready+deprovision; B arrive 3 b1 provision of binding; "
        "B answer 3 503 other-error of binding",
        f"{MADE}; create B; remove I; send I; arrive I 2; arrive B 1",
    ),
    "a deletion that is put off": Rule(
        f"{BOUND}P command cleaning/1; {REMOVE}B arrive 3 r2 deprovision; B answer 3 422 concurrency-error",
        f"{MADE}; create B; arrive B 1; work B part; issue B 1; end B done; take B 0; remove I; send I; arrive I 2",
    ),
    "credentials that are fetched": Rule(
        f"{ASYNC_BIND}B arrive 4 b3 fetch of binding; B answer 4 200 of binding; P hear b3 200 @c1 of binding; "
        "P take 2 ready/2 @c1 of binding",
        f"{ASYNC_BOUND}; fetch B; take-fetched B 1 0",
        binding="async",
    ),
    "credentials that aren't fetched": Rule(
        ASYNC_BIND + "P lose b3 of binding; P take 2 polling/2 of binding", f"{ASYNC_BOUND}; timeout B", binding="async"
    ),
    "credentials that are lost on the way": Rule(
        f"{ASYNC_BIND}B arrive 4 b3 fetch of binding; B answer 4 200 of binding; P lose b3 of binding; "
        "P take 2 polling/2 of binding",
        f"{ASYNC_BOUND}; fetch B; timeout B",
        binding="async",
    ),
    "credentials that another process reads": Rule(
        f"{BIND}B arrive 2 b1 provision of binding; B change 2 pending-provision of binding; "
        "B begin create of binding; B2 look whole of binding; B2 credentials @c1 of binding; "
        "B2 change 0 ready @c1 of binding",
        f"{MADE}; create B; arrive B 1; work B part; work B whole; issue B 1; crash B broker; end B done",
    ),
    "a Fetch that finds nothing": Rule(
        CREATED + "B arrive 2 x fetch of binding; B answer 2 404 other-error of binding", MADE
    ),
    "a 201 without credentials": Rule(
        BOUND.replace("P take 1 ready/1 @c1 of", "P take 1 cleaning/1 of"),
        f"{MADE}; create B; arrive B 1; work B part; issue B 1; end B done; timeout B",
    ),
    "a binding whose deletion fails": Rule(
        f"{BOUND}P command cleaning/1 of binding; P claim cleaning/2/deprovision of binding; "
        "P send b2 deprovision 2 of binding; B arrive 3 b2 deprovision of binding; "
        "B change 3 ready+deprovision @c1 of binding; B look whole of binding; B begin delete of binding; "
        "B end delete failed of binding; B look whole of binding; B change 3 ready @c1 of binding; "
        "B answer 3 500 other-error of binding",
        f"{MADE}; create B; arrive B 1; work B part; issue B 1; end B done; take B 0; remove B; send B; arrive B 2; "
        "work B part; issue B 1; end B before",
    ),
    "a command without a journal": Rule(
        POLLING + "P2 command cleaning/2 from polling/2; P claim cleaning/3/deprovision",
        f"{BEGUN}; crash I platform; timeout I; expire I; send I",
        "async",
    ),
    "an order, and its record": Rule(f"P command - state=ordered; {CREATED}", MADE),
    "an order that is withdrawn": Rule("P command - state=ordered; P command - state=withdrawn; B arrive 9 x poll", ""),
    "a record that is abandoned": Rule(CREATED + "P command ready/1 state=abandoned", MADE),
    "the last deletion": Rule(
        REMOVED + "P send r3 deprovision 0; B arrive 3 r3 deprovision; B answer 3 410 other-error",
        f"{MADE}; remove I; send I; arrive I 2; work I part; work I absent; end I done; take I 1",
    ),
    "another client's question": Rule(CREATED + "B arrive 2 x poll; B answer 2 200 succeeded", MADE),
    "another client's creation with other parameters": Rule(
        CREATED + "B arrive 2 x provision attributes=5; B answer 2 409 other-error", MADE
    ),
    "another client's binding": Rule(
        f"{BOUND_BY_OTHERS}B arrive 6 x2 deprovision of binding; B change 6 ready+deprovision @c1 of binding; "
        "B look whole of binding; B delete of binding; B look absent of binding; B change 6 tombstone of binding; "
        f"B answer 6 200 of binding; {REMOVE}B arrive 2 r2 deprovision; B change 2 ready+deprovision; B look whole; "
        "B delete; B look absent; B change 2 tombstone; B answer 2 200; P hear r2 200; P take 2 gone/2",
        f"{MADE}; remove I; send I; arrive I 2; work I part; work I absent; end I done; take I 1",
    ),
    "a Bind with other parameters": Rule(
        BOUND + "B arrive 3 x provision attributes=5 of binding; B answer 3 409 other-error of binding", BINDING_MADE
    ),
    "a creation with other parameters while work is pending": Rule(
        f"{PENDING}B arrive 2 x provision attributes=5; B answer 2 409 other-error; B arrive 3 x provision; "
        "B answer 3 503 other-error",
        "create I; arrive I 1",
    ),
    "a creation of another plan": Rule(CREATED + "B arrive 2 x provision plan=async; B answer 2 409 other-error", MADE),
    "a creation that is late, with other parameters": Rule(
        REMOVED + "B arrive 3 x provision attributes=5; B answer 3 409 other-error",
        f"{MADE}; remove I; send I; arrive I 2; work I part; work I absent; end I done; take I 1",
    ),
    "a copy of a request with other parameters": Rule(
        CREATED + "B arrive 2 r1 provision attributes=5; B answer 2 409 other-error", MADE
    ),
    "attributes": Rule(
        ASKED.replace("arrive 1 r1 provision", "arrive 1 r1 provision attributes=5")
        + "B change 1 pending-provision attributes=5; B create; B look whole; B change 1 ready attributes=5; "
        "B answer 1 201; P hear r1 201; P take 1 ready/1; P claim cleaning/2/deprovision; P send r2 deprovision 2; "
        "B arrive 2 r2 deprovision; B change 2 ready+deprovision attributes=5; B delete; B look absent; "
        "B change 2 tombstone; B answer 2 200; P hear r2 200; P take 2 gone/2",
        f"{MADE}; remove I; send I; arrive I 2; work I part; work I absent; end I done; take I 1",
    ),
    "an order with other attributes than before, after a creation that failed": Rule(
        f"{PENDING}B begin create; B end create failed; B look absent; B change 1 -; B answer 1 500 other-error; "
        "B arrive 2 x provision attributes=5; B answer 2 503 other-error",
        "create I; arrive I 1; work I part; work I absent; end I before",
    ),
}

# A driver names the event. Where the tables find several, its name counts.
ARRIVED = f"{ASKED}B change 1 pending-provision effect=arrive; "
FAILING = f"{ARRIVED}B begin create; B end create failed; B look absent; "
RULES |= {
    "a driver that names a creation's end": Rule(
        f"{ARRIVED}B create; B look whole; B change 1 ready effect=end_done; B answer 1 201; P hear r1 201; "
        "P take 1 ready/1",
        MADE,
    ),
    "a driver that names a creation's end as a failure that came after it": Rule(
        f"{ARRIVED}B begin create; B end create failed; B look whole; B change 1 ready effect=end_after; "
        "B answer 1 500 other-error; P hear r1 500 other-error; P take 1 cleaning/1",
        "create I; arrive I 1; work I part; work I whole; end I after; take I 0",
    ),
    "a driver that names a creation's failure": Rule(
        f"{FAILING}B change 1 - effect=end_before; B answer 1 500 other-error",
        "create I; arrive I 1; work I part; work I absent; end I before",
    ),
    "a driver that names the outcome of a failed binding": Rule(
        f"{BIND}B arrive 2 b1 provision of binding; B change 2 pending-provision effect=arrive of binding; "
        "B begin create of binding; B end create rejected of binding; B look absent of binding; "
        "B change 2 tombstone effect=end_refused-400 of binding; B answer 2 503 other-error of binding",
        f"{MADE}; create B; arrive B 1; work B part; work B absent; end B refused-400",
    ),
    "a driver that names a refusal, and an answer that is lost": Rule(
        f"{FAILING}B change 1 tombstone effect=end_refused-422",
        "create I; arrive I 1; work I part; work I absent; end I refused-422",
    ),
    "a driver that names the end of an operation": Rule(
        f"{ARRIVED}B change 1 making effect=end_done; B answer 1 202; P hear r1 202; P take 1 polling/1; B create; "
        "B look whole; B change 0 ready effect=finish_ok",
        "create I; arrive I 1; end I done; take I 0; work I part; work I whole; finish I ok",
        "async",
    ),
    "a driver that names an operation's failure": Rule(
        POLLING + "B change 0 failed effect=finish_fail", f"{BEGUN}; finish I fail", "async"
    ),
    "a driver that names the end of a wait": Rule(
        f"{ASKED}B change 1 waiting effect=arrive; B answer 1 202; B change 0 failed effect=give-up-waiting",
        "create I; arrive I 1; give-up-waiting I",
        "async",
        True,
    ),
    "a driver that names a request that changes nothing": Rule(
        CREATED + "B arrive 2 r1 provision; B answer 2 200 saw=ready effect=arrive", f"{MADE}; arrive I 1"
    ),
    "a driver that names a deletion that is put off": Rule(
        f"{BOUND}{REMOVE}B arrive 3 r2 deprovision; B answer 3 422 concurrency-error saw=ready effect=put-off",
        f"{BINDING_MADE}; remove I; send I; arrive I 2",
    ),
    "a driver that names a Bind that is put off": Rule(
        f"{BIND}{REMOVE}B arrive 2 r2 deprovision; B change 2 ready+deprovision effect=arrive; "
        "B arrive 3 b1 provision of binding; B answer 3 503 other-error saw=- effect=put-off of binding",
        f"{MADE}; create B; remove I; send I; arrive I 2; arrive B 1",
    ),
    "a driver that names a deletion while work is pending": Rule(
        f"{PENDING}{GIVEN_UP}B arrive 2 r2 deprovision; "
        "B answer 2 422 concurrency-error saw=pending-provision effect=arrive",
        "create I; arrive I 1; timeout I; send I; arrive I 2",
    ),
}
# So does a driver of the platform, of several events in turn.
CREATION = CREATED.replace("take 1 ready/1", "take 1 ready/1 effect=take")
GATEWAY = f"{FAILING}B change 1 -; B answer 1 500 other-error; P hear r1 500 other-error; "
FAILED_FIRST = "create I; arrive I 1; work I part; work I absent; end I before"
DELETION_POLLED = f"""{POLLING}B create; B look whole; B change 0 ready; B arrive 2 r2 poll; B answer 2 200 succeeded
P hear r2 200 succeeded; P take 2 ready/2 effect=take; P claim cleaning/3/deprovision effect=remove_send
P send r3 deprovision 3; B arrive 3 r3 deprovision; B change 3 ready+deprovision; B change 3 deleting; B answer 3 202
P hear r3 202; P take 3 cleaning-polling/3 effect=take; """
UNBOUND = BOUND.replace("P take 1 ready/1 @c1 of", "P take 1 cleaning/1 effect=timeout of")
RULES |= {
    "a driver of a platform that names a creation, and its answer": Rule(
        CREATION.replace("claim wanted/1/provision", "claim wanted/1/provision effect=create"), MADE
    ),
    "a driver that names a removal": Rule(
        f"{CREATION}P claim cleaning/2/deprovision effect=remove_send", f"{MADE}; remove I; send I"
    ),
    "a driver that names a timeout, and what follows": Rule(
        f"{PENDING}P lose r1; P take 1 cleaning/1 effect=timeout; P claim cleaning/2/deprovision effect=send",
        "create I; arrive I 1; timeout I; send I",
    ),
    "a driver that names what a crash has left": Rule(
        f"{PENDING}P2 claim cleaning/2/deprovision effect=timeout_send",
        "create I; arrive I 1; crash I platform; timeout I; send I",
    ),
    "a driver that names the end of a polling": Rule(
        f"{POLLING}P2 claim cleaning/3/deprovision effect=timeout_expire_send",
        f"{BEGUN}; crash I platform; timeout I; expire I; send I",
        "async",
    ),
    "a driver that names a removal that leaves the same": Rule(
        f"{POLLING}P2 claim cleaning/3/deprovision effect=timeout_remove_send",
        f"{BEGUN}; crash I platform; timeout I; remove I; send I",
        "async",
    ),
    "a driver that names a retry": Rule(
        f"{DELETION_POLLED}P2 command cleaning/3 effect=retry",
        f"{BEGUN}; work I part; work I whole; finish I ok; arrive I 2; take I 1; remove I; send I; arrive I 3; "
        "end I done; take I 2; retry I",
        "async",
    ),
    "a driver that names an answer that leaves the same as a timeout": Rule(
        f"{GATEWAY}P take 1 cleaning/1 effect=take", f"{FAILED_FIRST}; take I 0"
    ),
    "a driver that names a timeout that leaves the same as the answer": Rule(
        f"{GATEWAY}P take 1 cleaning/1 effect=timeout", f"{FAILED_FIRST}; timeout I"
    ),
    "a driver that names an answer of a gateway": Rule(
        f"{ASKED}P hear r1 502 malformed; P take 1 cleaning/1 effect=take; B answer 1 503 malformed",
        "create I; gateway I 502",
    ),
    "a driver that names an answer whose body can't be read": Rule(
        CREATED.replace("P hear r1 201; P take 1 ready/1", "P hear r1 201 malformed; P take 1 cleaning/1 effect=take"),
        MADE.replace("take I 0", "garble I 0"),
    ),
    "a driver that names the answer to a Poll and a Fetch": Rule(
        f"{ASYNC_BIND}B arrive 4 b3 fetch of binding; B answer 4 200 saw=ready of binding; "
        "P hear b3 200 @c1 of binding; P take 2 ready/2 @c1 effect=take of binding",
        f"{ASYNC_BOUND}; fetch B; take-fetched B 1 0",
        binding="async",
    ),
    "a driver that names a timeout of a 201 without credentials": Rule(
        UNBOUND, BINDING_MADE.replace("take B 0", "timeout B")
    ),
}


@pytest.mark.parametrize("name", RULES)
def test_rule(name: str) -> None:
    rule = RULES[name]
    of_broker = started(rule.first_poll, rule.binding, rule.retrievable, rule.locks_can_be_lost)
    found = story_of(Journal(rule.plan, of_broker=of_broker).tell(rule.story))
    assert events_of(found) == (rule.events.split("; ") if rule.events else [])
    assert (found.stop, found.disagreements) == (None, [])


def test_a_request_that_is_sent_late() -> None:
    """A worker that was paused for longer than its lease can have written the line, or has another clock. In the model,
    the request is delayed.
    """
    asks = "P claim wanted/1/provision; P2 claim cleaning/2/deprovision; P send r1 provision 1; "
    found = story_of(Journal().tell(asks + "P lose r1; P2 send r2 deprovision 2; B arrive 9 x poll"))
    assert events_of(found) == "create I; crash I platform; timeout I; send I".split("; ")
    assert (found.stop, found.notes) == (None, {LATE: 1})


def test_a_fetch_of_an_earlier_claim() -> None:
    """A worker that was paused for longer than its lease goes on with the Fetch, while it claims the record again."""
    asks = "P claim polling/3/poll of binding; P send b4 poll 3 of binding; P hear b4 503 malformed of binding; "
    telling = f"{ASYNC_BIND}; {asks}; P take 3 polling/3 of binding; P lose b3 of binding"
    found = story_of(Journal(of_broker=started(False, "async")).tell(telling))
    assert events_of(found) == [*ASYNC_BOUND.split("; "), "timeout B", "send B", "gateway B 503"]
    assert found.stop is None


def test_a_request_whose_claim_no_journal_has() -> None:
    """A worker's older file may be missing that has the claim. What the next change has found shows the claim."""
    asks = "P2 send r2 deprovision 2; B arrive 2 r2 deprovision; B change 2 ready+deprovision; B answer 2 503 malformed"
    more = "P2 hear r2 503 malformed; P2 take 2 cleaning/2 from cleaning/2/deprovision; P claim cleaning/3/deprovision"
    found = story_of(Journal().tell(f"{CREATED}; {asks}; {more}"))
    events = "remove I; send I; arrive I 2; crash I broker; gateway I 503; send I"
    assert events_of(found) == f"{MADE}; {events}".split("; ")
    assert (found.stop, found.notes) == (None, {BRIDGED: 1, FAILED: 1})


def test_requests_without_a_record() -> None:
    """A request that no record has isn't one of another client, if a journal has it."""
    asks = "B arrive 2 x poll; B answer 2 200 succeeded; P send r3 poll 0; B arrive 3 r3 poll; B answer 3 200 succeeded"
    found = story_of(Journal().tell(CREATED + asks))
    assert (found.stop, found.notes) == (None, {FOREIGN: 1, UNRECORDED: 1})


def test_creations_with_other_attributes() -> None:
    """A copy of a request with other attributes isn't the platform's request."""
    asks = "B arrive 2 x provision attributes=5; B answer 2 409 other-error; B arrive 3 r1 provision attributes=6; "
    found = story_of(Journal().tell(f"{CREATED}; {asks}; B answer 3 409 other-error"))
    assert (found.stop, found.notes) == (None, {FOREIGN: 1, ALTERED: 1})


def test_fetches_that_differ() -> None:
    """A Fetch that is answered though the creation has failed, and one that got no answer and is named as an answer."""
    of_broker = started(False, "async", True, True)
    failed = ASYNC_BIND.replace("B change 0 ready @c1", "B change 0 failed effect=finish_fail")
    answered = f"{failed}B arrive 4 b3 fetch of binding; B answer 4 200 of binding"
    lost = f"{ASYNC_BIND}P lose b3 of binding; P take 2 polling/2 effect=take of binding"
    for lines, why in ((answered, "the answer isn't the tables'"), (lost, NOT_COME)):
        stop = story_of(Journal(of_broker=of_broker).tell(lines)).stop
        assert stop is not None and (stop.is_difference, stop.why) == (True, why), stop


def test_another_plan_after_the_first_poll() -> None:
    asks = "P hear r1 202; P take 1 polling/1; P claim polling/2/poll; P send r2 poll 2; B arrive 2 r2 poll; "
    journal = Journal("async", of_broker=started(True)).tell(f"{WAITING}; {asks}; B change 2 making plan=sync")
    stop = story_of(journal).stop
    assert stop is not None and stop.is_difference and stop.journal == f"plan {PLANS['sync']}", stop


@pytest.mark.parametrize("request_id", ["x", "r1"])
def test_an_older_journal(request_id: str) -> None:
    """Without attributes in the arrivals, a conflict isn't judged, and all else is."""
    story = CREATED.replace("arrive 1 r1 provision", "arrive 1 r1 provision attributes=-")
    asks = f"B arrive 2 {request_id} provision attributes=-; "
    found = story_of(Journal().tell(f"{story}; {asks}; B answer 2 409 other-error"))
    assert (found.stop, found.notes, events_of(found)) == (None, {UNCOMPARED: 1}, MADE.split("; "))
    found = story_of(Journal().tell(f"{story}; {asks}; B answer 2 200"))
    assert found.stop is None and UNCOMPARED not in found.notes
    found = story_of(Journal().tell(f"{story}; B arrive 2 x provision attributes=-; B answer 2 410 other-error"))
    assert found.stop is not None and (found.stop.is_difference, found.stop.model) == (True, "200")


@pytest.mark.parametrize(
    ("first_poll", "binding", "retrievable", "wanted"),
    [
        (True, "async", True, ("async yes first-poll both", "async yes first-poll fetch")),
        (False, "none", False, ("async yes at-once both", "none yes at-once no-fetch")),
    ],
)
def test_orders(first_poll: bool, binding: str, retrievable: bool, wanted: tuple[str, str]) -> None:
    """An instance and a binding are taken in as the broker's plans and rules have them."""
    telling = "P claim wanted/1/provision; P send r1 provision 1; P claim wanted/1/provision of binding"
    found = story_of(
        Journal("async", of_broker=started(first_poll, binding, retrievable)).tell(f"{telling}; B arrive 9 x poll")
    )
    orders = [short(event.text) for event in found.events if event.text.startswith(("instance", "binding"))]
    assert orders == [f"instance I {SERVICE} {PLANS['async']} {wanted[0]}", f"binding B {wanted[1]}"]


# What can't be judged, and how many events come before it.
UNJUDGED = {
    "of another client": (
        CREATED + "B arrive 2 x deprovision; B change 2 ready+deprovision",
        "no journal of a platform",
        7,
    ),
    "of an instance that has a binding of another client": (
        f"{BOUND_BY_OTHERS}{REMOVE}B arrive 2 r2 deprovision; B answer 2 422 concurrency-error",
        "another client has a binding of it",
        9,
    ),
    "of a binding that another client had created": (
        BOUND_BY_OTHERS + "P claim wanted/1/provision of binding",
        "a platform has ordered what another client had created",
        7,
    ),
    "of a binding of the platform, changed by another client": (
        BOUND + "B arrive 6 x2 deprovision of binding; B change 6 ready+deprovision @c1 of binding",
        "no journal of a platform",
        14,
    ),
    "of a last deletion": (
        CREATED + "P send r3 deprovision 0; B arrive 3 r3 deprovision; B change 3 ready+deprovision",
        "no record has",
        7,
    ),
    "begun before, at the broker": ("B arrive 1 r1 poll; B change 1 making from waiting", "begins in the middle", 0),
    "begun before, at the platform": (
        "B arrive 1 x poll; P claim cleaning/2 from cleaning/1",
        "begins in the middle",
        0,
    ),
    "begun before its first request": ("B arrive 9 x poll; P send r2 deprovision 2", "begins in the middle", 0),
    "begun before its first request, and goes on": (
        "B arrive 9 x poll; P send r2 deprovision 2; P lose r2; P take 2 cleaning/2 from cleaning/2/deprovision",
        "begins in the middle",
        0,
    ),
    "an answer of nobody": (
        f"B arrive 9 x poll; {SENT}P hear r1 400 other-error; P take 1 gone/1",
        "no journal of a broker has",
        2,
    ),
    "an id that returns": (REMOVED + "B arrive 3 r9 provision; B change 3 pending-provision !returned", "returned", 14),
    "a failed binding that the broker deletes": (
        f"{BIND}B arrive 2 b1 provision of binding; B change 2 waiting of binding; B answer 2 202 of binding; "
        "B change 0 failed of binding; B arrive 3 x deprovision; B change 3 failed+deprovision of binding",
        "has deleted a binding by itself",
        11,
    ),
    "an abandoned binding": (
        BOUND + "P abandon ready/1 of binding; P claim cleaning/2/deprovision",
        "an operator has abandoned",
        14,
    ),
    "a conflict of an older journal that the platform takes": (
        PENDING.replace("arrive 1 r1 provision", "arrive 1 r1 provision attributes=-")
        + "B create; B look whole; B change 1 ready; B arrive 2 r1 provision attributes=-; B answer 2 409 other-error; "
        "P hear r1 409 other-error; P take 1 unsettled/1",
        "took a 409 that isn't judged",
        6,
    ),
    "no broker": ("P claim wanted/1/provision", "no journal of a broker was given", 0),
    "no arrival": (ASKED + "B answer 7 201", "whose line `arrived` isn't there", 2),
}


@pytest.mark.parametrize("name", UNJUDGED)
def test_unjudged(name: str) -> None:
    telling, why, events = UNJUDGED[name]
    found = story_of(Journal().tell(telling))
    assert found.stop is not None and not found.stop.is_difference
    assert why in found.stop.why and len(found.events) == events
