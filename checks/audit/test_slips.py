"""A program that breaks a rule is found: each story has one slip, and the audit names the line that shows it."""

from __future__ import annotations

from pathlib import Path
from typing import Any, NamedTuple

import pytest
from audit.conftest import audited
from audit.journals import (
    ASKED,
    BIND,
    BINDING,
    BOUND,
    BOUND_BY_OTHERS,
    CREATED,
    DELETING,
    EXPIRED,
    GIVEN_UP,
    INSTANCE,
    OTHER,
    PENDING,
    PLANS,
    POLLING,
    REMOVE,
    REMOVED,
    REMOVING,
    SENT,
    SERVICE,
    Journal,
    held_text,
    started,
)
from osb_audit.calls import TOGETHER
from osb_audit.walk import NAMED

pytestmark = pytest.mark.slow


class Slip(NamedTuple):
    """A story, the line that shows its slip, as a part of a file's name and a number, and what is reported."""

    story: str
    position: tuple[str, int]
    why: str
    model: str
    journal: str
    plan: str
    event: str


def slip(story: str, shown: str, plan: str = "sync", event: str = "") -> Slip:
    """`shown`: the line, why, and what the model and the journal have, with a bar between them."""
    position, why, model, journal = (*(part.strip() for part in shown.split("|")), "", "")[:4]
    file, line = position.split()
    return Slip(story, (file, int(line)), why, model, journal, plan, event)


def skipped(story: str, shown: str, plan: str = "sync") -> Slip:
    """A slip that shows as an event that can't happen. `shown`: the line, and the event."""
    position, event = shown.split(" | ")
    return slip(story, f"{position} | the event can't happen here | step skipped | step applied", plan, event)


def differing(story: str, shown: str, plan: str = "sync") -> Slip:
    """A slip that shows after its event: the model has something else than the journal. `shown`: the line, the event,
    and what both have.
    """
    position, event, both = shown.split(" | ", 2)
    return slip(story, f"{position} | after the event, the model has something else | {both}", plan, event)


HELD_READY, HELD_MAKING = (held_text(phase, "sync", INSTANCE) for phase in ("ready", "making"))
HELD_READY_ASYNC, HELD_MAKING_ASYNC = (held_text(phase, "async", INSTANCE) for phase in ("ready", "making"))
OF_THE_TABLES = "a request changes the row otherwise than the tables"
# A worker has just ended the creation of an instance.
STALE = "the request was decided on a row that there never was while it was carried out"
ENDED = f"{POLLING}B create; B look whole; B change 0 ready; "
REMOVING_FAILS = f"""{DELETING}B look whole visit=2; B2 look whole; B2 begin delete
B2 end delete failed; B2 look whole; B2 change 0 ready from ready+deprovision; """
ASKED7 = ASKED.replace("B arrive", "B7 arrive")
"""B7 and B8 have locks that can't be lost."""
PROCESS = "000000000000420"
SLIPS = {
    "an answer before the commit": slip(
        PENDING + "B create; B answer 1 201; B change 1 ready",
        "broker 6 | it is answered while its work is pending | no answer yet | 201",
    ),
    "an answer before the first commit": slip(
        ASKED + "B answer 1 202; B change 1 pending-provision; B change 1 making",
        "broker 3 | it is answered before its change is written | no such answer yet | 202",
        "async",
    ),
    "work before the commit": skipped(
        ASKED + "B create; B change 1 pending-provision; B look whole; B change 1 ready; B answer 1 201",
        f"broker 3 | work {INSTANCE} part",
    ),
    "an end without its work": skipped(
        PENDING + "B look absent; B change 1 ready; B answer 1 201", f"broker 6 | end {INSTANCE} done"
    ),
    "a binding of another client whose instance is being created": slip(
        PENDING + "B arrive 2 x1 provision of binding; B change 2 pending-provision of binding",
        f"broker 5 | {OF_THE_TABLES} | none, -, -",
    ),
    "a deletion beside a binding of another client": slip(
        f"{BOUND_BY_OTHERS}{REMOVE}B arrive 2 r2 deprovision; B change 2 ready+deprovision",
        f"broker 23 | {OF_THE_TABLES} | ready, -, -",
    ),
    "a tombstone that is lost, of another client's binding": slip(
        f"{BOUND_BY_OTHERS}B arrive 6 x2 deprovision of binding; B change 6 ready+deprovision @c1 of binding; "
        "B look whole of binding; B delete of binding; B look absent of binding; B change 6 - of binding",
        "broker 30 | no end of the pending work leaves this | another row",
    ),
    "the row that is lost of another client's binding, which a deletion has left": slip(
        f"{BOUND_BY_OTHERS}B arrive 6 x2 deprovision of binding; "
        "B change 6 ready+deprovision @c1 effect=arrive of binding; B look whole of binding; "
        "B change 6 - effect=end_before of binding",
        "broker 26 | no end of the pending work leaves this | another row",
    ),
    "end twice": slip(
        PENDING + "B create; B look whole; B change 1 ready; B answer 1 201; B change 0 ready from pending-provision",
        "broker 10 | the row isn't as its last change has left it",
    ),
    "a change that is committed in spite of its error": slip(
        f"{PENDING}B create; B look whole; B change 1 ready !undone; B answer 1 500 other-error; "
        f"P hear r1 500 other-error; P take 1 cleaning/1; {REMOVE}B arrive 2 r2 deprovision; "
        "B change 2 ready+deprovision",
        "broker 12 | the row isn't as its last change has left it",
    ),
    "a part that is left behind a deletion": skipped(REMOVED + "B2 look part", f"broker 3 | work {INSTANCE} part"),
    "a part that was never there while the look went on": skipped(
        REMOVED + "B2 begin look; B arrive 3 r1 provision; B answer 3 409 other-error; B2 end look part",
        f"broker 3 | work {INSTANCE} part",
    ),
    "a creation that is done once more after its end": skipped(
        f"{PENDING}B look absent visit=1; B create visit=1; B look whole visit=1; B change 1 ready; B create visit=1; "
        "B answer 1 201",
        f"broker 11 | work {INSTANCE} part",
    ),
    "a creation that comes after a deletion has ended": skipped(
        f"{PENDING}B look absent visit=1; B2 create; B2 look whole; B2 change 0 ready from pending-provision; "
        f"{GIVEN_UP}B2 arrive 1 r2 deprovision; B2 change 1 ready+deprovision; B2 delete visit=1; "
        "B2 look absent visit=1; B2 change 1 tombstone; B2 answer 1 200; B create visit=1",
        f"broker 6 | work {INSTANCE} part",
    ),
    "a deletion that comes after its instance is ready again": skipped(
        REMOVING_FAILS + "B begin delete visit=2; B end delete done visit=2", f"broker 16 | work {INSTANCE} part"
    ),
    "an end that another worker's call has made wrong": skipped(
        PENDING + "B create visit=1; B look whole visit=1; B2 look whole; B2 delete; B change 1 ready",
        f"broker 8 | end {INSTANCE} done",
    ),
    "an operation that ends well without its resource": skipped(
        PENDING + "B change 1 making; B answer 1 202; B look absent; B change 0 ready",
        f"broker 8 | finish {INSTANCE} ok",
        "async",
    ),
    "a record taken with an old attempt's answer": skipped(
        f"{CREATED}P command cleaning/1; {REMOVE}P lose r2; P take 2 cleaning/2; P claim cleaning/3/deprovision; "
        "P send r3 deprovision 3; B arrive 2 r2 deprovision; B change 2 ready+deprovision; B delete; B look absent; "
        "B change 2 tombstone; B answer 2 200; P take 3 gone/3",
        f"platform 13 | take {INSTANCE} 1",
    ),
    "a removed tombstone": slip(
        REMOVED + "B arrive 3 r1 provision; B change 3 pending-provision from -",
        "broker 23 | the row isn't as its last change has left it",
    ),
    "a creation in spite of a tombstone": differing(
        REMOVED + "B arrive 3 r1 provision; B change 3 pending-provision",
        f"broker 23 | arrive {INSTANCE} 1 | work -, tombstone tombstone, answer 409-Other | "
        "work provision, tombstone -, answer -",
    ),
    "ready after a garbled 201": differing(
        PENDING + "B create; B look whole; B change 1 ready; B answer 1 201; P hear r1 201 malformed; P take 1 ready/1",
        f"platform 5 | garble {INSTANCE} 0 | state cleaning | state ready",
    ),
    "ready after a 500": differing(
        ASKED + "B answer 1 500 other-error; P hear r1 500 other-error; P take 1 ready/1",
        f"platform 5 | gateway {INSTANCE} 500 | state cleaning | state ready",
    ),
    "another answer than the row's": differing(
        CREATED + "B arrive 2 r1 provision; B answer 2 202",
        f"broker 13 | arrive {INSTANCE} 1 | answer 200 | answer 202",
    ),
    "an answer decided on another row": slip(
        CREATED + "B arrive 2 r1 provision; B answer 2 200 saw=making",
        f"broker 13 | the request was decided on a row that there never was | {HELD_READY} | {HELD_MAKING}",
    ),
    "an answer that no broker gave": slip(
        PENDING + "B create; B look whole; P hear r1 400 other-error; P take 1 gone/1",
        "platform 5 | the platform took an answer that no broker has given | - | 400-Other",
    ),
    "a deletion that is put off without need": differing(
        REMOVING + "B answer 2 422 concurrency-error saw=ready",
        f"broker 13 | arrive {INSTANCE} 2 | answer - | answer 422-ConcurrencyError",
    ),
    "a deletion that is put off for a binding that has ended": differing(
        f"{BOUND}P claim cleaning/2/deprovision of binding; P send b2 deprovision 2 of binding; "
        "B arrive 3 b2 deprovision of binding; B change 3 ready+deprovision of binding; B delete of binding; "
        "B look absent of binding; B change 3 tombstone of binding; B answer 3 200 of binding; "
        f"P hear b2 200 of binding; P take 2 gone/2 of binding; {REMOVE}B arrive 4 r2 deprovision; "
        "B answer 4 422 concurrency-error",
        f"broker 31 | arrive {INSTANCE} 2 | answer - | answer 422-ConcurrencyError",
    ),
    "a Poll that is put off without need": differing(
        f"{PENDING}B change 1 making; B answer 1 202; P hear r1 202; P take 1 polling/1; B create; B look whole; "
        "B change 0 ready; P claim polling/2/poll; P send r2 poll 2; B arrive 2 r2 poll; "
        "B answer 2 200 in-progress saw=ready",
        f"broker 12 | arrive {INSTANCE} 2 | answer 200-succeeded | answer 200-in-progress",
        "async",
    ),
    "a deletion that hides that it was carried out": differing(
        DELETING + "B delete; B look absent; B change 2 tombstone; B answer 2 422 concurrency-error",
        f"broker 18 | end {INSTANCE} done | answer 200 | answer 422-ConcurrencyError",
    ),
    "the end of a creation over a deletion": slip(
        DELETING + "B change 1 ready", "broker 14 | a request changes the row that was answered before | no change"
    ),
    "a request that ends the work of another": slip(
        f"{CREATED}B arrive 2 r1 provision; {REMOVE}B arrive 3 r2 deprovision; B change 3 ready+deprovision; "
        "B change 2 ready",
        "broker 15 | a provision ends the pending work of a deprovision | no change",
    ),
    "a Poll of another answer": differing(
        POLLING + "B arrive 2 r2 poll; B answer 2 200 succeeded",
        f"broker 7 | arrive {INSTANCE} 2 | answer 200-in-progress | answer 200-succeeded",
        "async",
    ),
    "a Poll of what was held before the commit of a change that another request has found": slip(
        f"{ENDED}{EXPIRED}B arrive 3 r3 deprovision; B change 3 ready+deprovision; B arrive 2 r2 poll; "
        "B answer 2 200 in-progress saw=making",
        f"broker 14 | {STALE} | | {HELD_MAKING_ASYNC}",
        "async",
    ),
    "a Poll of what was held before the commit of a change that another request has seen": slip(
        f"{ENDED}B arrive 2 r2 poll; B answer 2 200 succeeded saw=ready; P hear r2 200 succeeded; P take 2 ready/2; "
        "B arrive 3 r2 poll; B answer 3 200 in-progress saw=making",
        f"broker 14 | {STALE} | {HELD_READY_ASYNC} | {HELD_MAKING_ASYNC}",
        "async",
    ),
    "a Poll of what was held before a change that was committed": slip(
        ENDED + "B arrive 2 r2 poll committed=3; B answer 2 200 in-progress saw=making",
        f"broker 12 | {STALE} | {HELD_READY_ASYNC} | {HELD_MAKING_ASYNC}",
        "async",
    ),
    "a Poll of what was held before a change that was committed, while another is still to be": slip(
        f"{ENDED}{EXPIRED}B arrive 3 r3 deprovision; B change 3 ready+deprovision; B arrive 2 r2 poll committed=3; "
        "B answer 2 200 in-progress saw=making",
        f"broker 14 | {STALE} | | {HELD_MAKING_ASYNC}",
        "async",
    ),
    "a Poll of what was held before a doubtful change, and before one that was committed": slip(
        ENDED.replace("B change 0 ready", "B change 0 ready !doubtful")
        + """P lose r2; P take 2 polling/2; P claim cleaning/3/deprovision; P send r3 deprovision 3
             B arrive 3 r3 deprovision; B change 3 ready+deprovision; B arrive 2 r2 poll committed=4
             B answer 2 200 in-progress saw=making""",
        f"broker 15 | {STALE} | | {HELD_MAKING_ASYNC}",
        "async",
    ),
    "two workers of one process at once": slip(
        f"{ASKED7}B7 change 1 pending-provision; B7 begin create visit=1; B7 begin look; B7 end look part; "
        "B7 end create done visit=1; B7 look whole visit=1; B7 change 1 ready; B7 answer 1 201",
        f"broker 5 | {TOGETHER} | create of {PROCESS}7 goes on | look of {PROCESS}7 begins",
    ),
    "two workers of two processes at once": slip(
        f"{ASKED7}B7 change 1 pending-provision; B7 begin look visit=1; B8 begin look; B7 end look absent visit=1; "
        "B7 create visit=1; B8 end look absent; B7 look whole visit=1; B7 change 1 ready; B7 answer 1 201",
        f"broker 2 | {TOGETHER} | look of {PROCESS}7 goes on | look of {PROCESS}8 begins",
    ),
    "other credentials in the row": differing(
        f"{BIND}B arrive 2 b1 provision of binding; B change 2 pending-provision of binding; B create @c1 of binding; "
        "B look whole of binding; B change 2 ready @c2 of binding",
        f"broker 18 | end {INSTANCE}/{BINDING} done | credentials 1 | credentials 2",
    ),
    "other credentials in the record": differing(
        BOUND.replace("P take 1 ready/1 @c1", "P take 1 ready/1 @c3"),
        f"platform 9 | take {INSTANCE}/{BINDING} 0 | recorded 1 | recorded 2",
    ),
    "a deletion beside a binding": skipped(
        BOUND + "P claim cleaning/2/deprovision", f"platform 10 | remove {INSTANCE}"
    ),
    "a Bind without its instance": skipped(
        ASKED + "P claim wanted/1/provision of binding; P send b1 provision 1 of binding",
        f"platform 4 | create {INSTANCE}/{BINDING}",
    ),
    "a record that goes back": slip(
        CREATED + "P claim wanted/1/provision from ready/1",
        "platform 6 | no events of the platform lead to this record | ready - 1 | wanted provision 1",
    ),
    "a change without a request": slip(
        CREATED + "B change 0 tombstone", "broker 12 | no request and no end of work makes this change | no change"
    ),
}


# ---- a platform that sends before it writes, or takes what hasn't come

STATES = "the state of the change isn't that of its record"
NOT_OUT, NOT_COME = "a request is sent that the record doesn't have in flight", "takes an answer that has not come"
SLIPS |= {
    "a creation that is sent before its claim": slip(
        CREATED.replace(
            "P claim wanted/1/provision; P send r1 provision 1", "P send r1 provision 1; P claim WANTED"
        ).replace("WANTED", "wanted/1/provision"),
        f"platform 2 | {NOT_OUT} | - - | provision 1",
    ),
    "a creation that is sent between its order and its claim": slip(
        "P2 command - state=ordered; P send r1 provision 1; P claim wanted/1/provision; B arrive 1 r1 provision",
        f"platform 2 | {NOT_OUT} | - - | provision 1",
    ),
    "a creation that is sent and never claimed": slip(
        "P2 command - state=ordered; P send r1 provision 1; B arrive 1 r1 provision",
        f"platform 2 | {NOT_OUT} | - - | provision 1",
    ),
    "a deletion that is sent before its claim": slip(
        REMOVED.replace(
            "P claim cleaning/2/deprovision; P send r2 deprovision 2", "P send r2 deprovision 2; P claim X"
        ).replace("X", "cleaning/2/deprovision"),
        f"platform 6 | {NOT_OUT} | - 1 | deprovision 2",
    ),
    "a request of another kind than the record's": slip(
        "P claim wanted/1/provision; P send r1 deprovision 1; B arrive 1 r1 deprovision",
        f"platform 3 | {NOT_OUT} | provision 1 | deprovision 1",
    ),
    "a request that is sent though its claim was undone": slip(
        "P claim wanted/1/provision !undone; P send r1 provision 1; B arrive 1 r1 provision; "
        "P claim wanted/1/provision from -",
        f"platform 4 | {NOT_OUT} | - - | provision 1",
    ),
    "a request that is sent after it was given up": slip(
        "P claim wanted/1/provision; P take 1 cleaning/1; P send r1 provision 1; B arrive 1 r1 provision",
        f"platform 4 | {NOT_OUT} | - 1 | provision 1",
    ),
    "an answer that is taken before it has come": slip(
        CREATED.replace("P hear r1 201; P take 1 ready/1", "P take 1 ready/1; P hear r1 201"),
        f"platform 4 | {NOT_COME} | - | 201",
    ),
    "a timeout that is taken before the answer has come": slip(
        SENT + "P take 1 cleaning/1; P hear r1 502 malformed; B arrive 1 r1 provision",
        f"platform 4 | {NOT_COME} | - | 502-malformed",
    ),
    "a timeout that is taken before a Fetch is answered": slip(
        f"{PENDING}B create; B look whole; B change 1 ready; B answer 1 201; P hear r1 201; P take 1 ready/1; "
        "P claim wanted/1/provision of binding; P send b1 provision 1 of binding; P lose b1 of binding; "
        "P take 1 cleaning/1 of binding; P claim cleaning/2/deprovision of binding; P send b2 fetch of binding; "
        "P take 2 cleaning/2 of binding; P lose b2 of binding",
        f"platform 12 | {NOT_COME} | - | lost",
    ),
    "an answer that is taken though it was lost": slip(
        CREATED.replace("P hear r1 201", "P lose r1"), f"platform 5 | {NOT_COME} | - | 201"
    ),
    "a state that isn't the record's": slip(
        CREATED.replace("P take 1 ready/1", "P take 1 ready/1 state=gone"),
        f"platform 5 | {STATES} | state ready or abandoned | state gone",
    ),
    "a state of a claim that isn't the record's": slip(
        CREATED + "P claim cleaning/2/deprovision state=ready", f"platform 6 | {STATES} | | state ready"
    ),
    "an order that is ready": slip(
        "P command - state=ready; B arrive 9 x poll",
        f"platform 2 | {STATES} | state ordered or withdrawn | state ready",
    ),
    "an order that was never sent and is abandoned": slip(
        "P command - state=abandoned; B arrive 9 x poll", f"platform 2 | {STATES} | | state abandoned"
    ),
    "an order that is withdrawn after it was sent": slip(
        CREATED + "P command ready/1 state=withdrawn", f"platform 6 | {STATES} | | state withdrawn"
    ),
    "an answer that comes before its request": slip(
        "P claim wanted/1/provision; P hear r1 502 malformed; P send r1 provision 1; P take 1 cleaning/1; "
        "B arrive 1 r1 provision",
        "platform 3 | a request is answered before it is sent | no answer yet | 502-malformed",
    ),
}


# ---- what a row, pending work, a request or a record names


NONE, FIVE = "attributes " + "0" * 64, "attributes " + "5" * 64
ONE, TWO = f"plan {PLANS['sync']}", f"plan {PLANS['async']}"
OURS, THEIRS = f"service {SERVICE}", f"service {OTHER}"
BEGUN, KEPT = "than the request that began it", "what is held has another service, plan or attributes than before"
WORK, RECORD = "the pending work isn't that of its request", "the record has another service or plan than the order"
WORKED = "B look absent; B create; B look whole; "
ALL_OTHER = f"{ASKED}B change 1 pending-provision plan=async; {WORKED}B change 1 ready plan=async; B answer 1 201"
BINDING_ASKED = f"{BIND}B arrive 2 b1 provision of binding; "
SLIPS |= {
    "another plan in all texts": slip(ALL_OTHER, f"broker 3 | {BEGUN} | {ONE} | {TWO}"),
    "another service": slip(
        ASKED + "B change 1 pending-provision service=other", f"broker 3 | {BEGUN} | {OURS} | {THEIRS}"
    ),
    "other attributes": slip(
        ASKED + "B change 1 pending-provision attributes=5", f"broker 3 | {BEGUN} | {NONE} | {FIVE}"
    ),
    "another plan of a row that waits": slip(
        ASKED + "B change 1 waiting plan=sync", f"broker 3 | {BEGUN} | {TWO} | {ONE}", "async"
    ),
    "another plan of what another client creates": slip(
        "B arrive 1 x provision; B change 1 pending-provision plan=async", f"broker 3 | {BEGUN} | {ONE} | {TWO}"
    ),
    "another plan at the end": slip(
        f"{PENDING}{WORKED}B change 1 ready plan=async", f"broker 10 | {KEPT} | {ONE} | {TWO}"
    ),
    "another service at the end": slip(
        f"{PENDING}{WORKED}B change 1 ready service=other", f"broker 10 | {KEPT} | {OURS} | {THEIRS}"
    ),
    "other attributes at the end": slip(
        f"{PENDING}{WORKED}B change 1 ready attributes=5", f"broker 10 | {KEPT} | {NONE} | {FIVE}"
    ),
    "other attributes after an operation": slip(
        PENDING + "B change 1 making; B create; B look whole; B change 0 ready attributes=5",
        f"broker 9 | {KEPT} | {NONE} | {FIVE}",
        "async",
    ),
    "another plan in a deletion": slip(
        REMOVING + "B change 2 ready+deprovision plan=async", f"broker 13 | {KEPT} | {ONE} | {TWO}"
    ),
    "a deletion of another plan than the row's": slip(
        REMOVING + "B change 2 ready+deprovision work-plan=async", f"broker 13 | {WORK} | {ONE} | {TWO}"
    ),
    "a deletion of another plan than it names": slip(
        REMOVING.replace("B arrive 2 r2 deprovision", "B arrive 2 r2 deprovision plan=async")
        + "B change 2 ready+deprovision",
        f"broker 13 | {WORK} | {TWO} | {ONE}",
    ),
    "pending work of another instance": slip(
        ASKED + "B change 1 pending-provision work-id=other", f"broker 3 | {WORK} | | id {OTHER}"
    ),
    "pending work that may go on": slip(
        ASKED.replace("arrive 1 r1 provision", "arrive 1 r1 provision accepts=no") + "B change 1 pending-provision",
        f"broker 3 | {WORK} | accepts_incomplete False | accepts_incomplete True",
    ),
    "attributes of nothing": slip(
        REMOVING + "B change 2 ready+deprovision; B delete; B look absent; B change 2 tombstone attributes=5",
        f"broker 18 | there are attributes without a row and without pending work | {NONE} | {FIVE}",
    ),
    "another plan of a binding": slip(
        BINDING_ASKED + "B change 2 pending-provision plan=async of binding", f"broker 13 | {BEGUN} | {ONE} | {TWO}"
    ),
    "other attributes of a binding": slip(
        BINDING_ASKED + "B change 2 pending-provision attributes=5 of binding", f"broker 13 | {BEGUN} | {NONE} | {FIVE}"
    ),
    "a request that is read as of another plan": slip(
        ALL_OTHER.replace("arrive 1 r1 provision", "arrive 1 r1 provision plan=async"),
        f"broker 3 | the request has another service or plan than the one that the platform has sent | {ONE} | {TWO}",
    ),
    "a request of another plan than the record's": slip(
        "P claim wanted/1/provision; P send r1 provision 1 plan=async; B arrive 1 x poll",
        f"platform 3 | the request has another service or plan than the record | {ONE} | {TWO}",
    ),
    "a record of another plan": slip(
        "P claim wanted/1/provision plan=async; B arrive 1 x poll", f"platform 2 | {RECORD} | {ONE} | {TWO}"
    ),
    "a record of another plan after the answer": slip(
        CREATED.replace("P take 1 ready/1", "P take 1 ready/1 plan=async"), f"platform 5 | {RECORD} | {ONE} | {TWO}"
    ),
    "a record of another service after the answer": slip(
        CREATED.replace("P take 1 ready/1", "P take 1 ready/1 service=other"),
        f"platform 5 | {RECORD} | {OURS} | {THEIRS}",
    ),
    "a record of another plan after a command": slip(
        CREATED + "P command cleaning/1 plan=async", f"platform 6 | {RECORD} | {ONE} | {TWO}"
    ),
    "a creation with other parameters that is answered 200": slip(
        CREATED + "B arrive 2 x provision attributes=5; B answer 2 200 saw=ready",
        "broker 13 | the answer isn't the tables' | 409-Other | 200",
    ),
    "a conflict without other parameters": slip(
        CREATED + "B arrive 2 x provision; B answer 2 409 other-error",
        "broker 13 | the answer isn't the tables' | 200 | 409-Other",
    ),
    "a conflict that the platform takes": slip(
        f"{PENDING}{WORKED}B change 1 ready; B arrive 2 r1 provision attributes=5; B answer 2 409 other-error; "
        "P hear r1 409 other-error; P take 1 unsettled/1",
        "platform 5 | the platform took an answer that no broker has given | - | 409-Other",
    ),
}


# ---- a driver that names another event than what has happened

NO_WORK = "no work is pending that can end so"
ANOTHER = "one that changes it so"
CREATING = f"{PENDING}{WORKED}"
REFUSED = f"{PENDING}B look absent; B begin create; B end create rejected; B look absent; "
SLIPS |= {
    "a creation that is named as one that failed": skipped(
        CREATING + "B change 1 ready effect=end_before", f"broker 10 | end {INSTANCE} before"
    ),
    "a refusal that is named as a success": skipped(
        REFUSED + "B change 1 tombstone effect=end_done", f"broker 10 | end {INSTANCE} done"
    ),
    "an end that is named as an arrival": differing(
        CREATING + "B change 1 ready effect=arrive",
        f"broker 10 | arrive {INSTANCE} 1 | phase none, work provision | phase ready, work -",
    ),
    "an arrival that is named as an end": slip(
        ASKED + "B change 1 pending-provision effect=end_done", f"broker 3 | {NO_WORK} | - | end done"
    ),
    "an arrival that is named as one that is put off": slip(
        ASKED + "B change 1 pending-provision effect=put-off", f"broker 3 | {NAMED} | {ANOTHER} | put-off"
    ),
    "a change that is named as none": slip(
        ASKED + "B change 1 pending-provision effect=nothing", f"broker 3 | {NAMED} | {ANOTHER} | nothing"
    ),
    "an operation that succeeds and is named as one that fails": differing(
        ENDED.replace("change 0 ready", "change 0 ready effect=finish_fail"),
        f"broker 10 | finish {INSTANCE} fail | phase failed | phase ready",
        "async",
    ),
    "an operation that fails and is named as a wait": skipped(
        POLLING + "B change 0 failed effect=give-up-waiting",
        f"broker 6 | give-up-waiting {INSTANCE}",
        "async",
    ),
    "a change of no request that is named as an end of work": slip(
        CREATED + "B change 0 tombstone effect=end_done", f"broker 12 | {NO_WORK} | - | end done"
    ),
    "a Bind that is put off and isn't named so": slip(
        f"{PENDING}B arrive 2 x1 provision of binding; B answer 2 503 other-error saw=- effect=arrive of binding",
        f"broker 5 | {NAMED} | put-off | arrive",
    ),
    "a request that is named as one that is put off": slip(
        CREATED + "B arrive 2 r1 provision; B answer 2 200 saw=ready effect=put-off",
        f"broker 13 | {NAMED} | arrive | put-off",
    ),
    "an operation that a Poll ends, and that is named as its end": slip(
        f"{POLLING}B create; B look whole; B arrive 2 r2 poll; B change 2 ready effect=finish_ok",
        f"broker 11 | {NAMED} | arrive | finish ok",
        "async",
    ),
    "a refusal that is named as another one": differing(
        REFUSED + "B change 1 tombstone effect=end_refused-400; B answer 1 422 other-error",
        f"broker 10 | end {INSTANCE} refused-400 | answer 400-Other | answer 422-Other",
    ),
}

ANSWERED = CREATED.partition("P take")[0]
SLIPS |= {
    "a creation that is named as a further request": skipped(
        "P claim wanted/1/provision effect=send; B arrive 9 x poll", f"platform 2 | send {INSTANCE}"
    ),
    "a claim that is named as none": slip(
        "P claim wanted/1/provision effect=nothing; B arrive 9 x poll", f"platform 2 | {NAMED} | {ANOTHER} | nothing"
    ),
    "a claim that is named as an event of a broker": slip(
        "P claim wanted/1/provision effect=arrive; B arrive 9 x poll", f"platform 2 | {NAMED} | {ANOTHER} | arrive"
    ),
    "a request that a crash has left, and that isn't named": skipped(
        f"{PENDING}P2 claim cleaning/2/deprovision effect=send", f"platform 2 | send {INSTANCE}"
    ),
    "a timeout that is named and wasn't": skipped(
        f"{CREATED}P claim cleaning/2/deprovision effect=timeout_remove_send", f"platform 6 | timeout {INSTANCE}"
    ),
    "a removal that is named as the end of a polling": skipped(
        f"{CREATED}P claim cleaning/2/deprovision effect=expire_send", f"platform 6 | expire {INSTANCE}"
    ),
    "a removal that is named without its request": differing(
        f"{CREATED}P claim cleaning/2/deprovision effect=remove",
        f"platform 6 | remove {INSTANCE} | out -, attempt 1 | out deprovision, attempt 2",
    ),
    "the end of a polling that is named as a retry": skipped(
        f"{POLLING}P lose r2; P take 2 polling/2; P claim cleaning/3/deprovision effect=retry_send",
        f"platform 10 | retry {INSTANCE}",
        "async",
    ),
    "a removal by an operator that is named as a retry": skipped(
        f"{CREATED}P command cleaning/1 effect=retry", f"platform 6 | retry {INSTANCE}"
    ),
    "an answer that is named as a timeout": differing(
        f"{ANSWERED}P take 1 ready/1 effect=timeout", f"platform 5 | timeout {INSTANCE} | state cleaning | state ready"
    ),
    "a timeout that is named as an answer": differing(
        f"{ANSWERED}P take 1 cleaning/1 effect=take", f"platform 5 | take {INSTANCE} 0 | state ready | state cleaning"
    ),
    "an answer that was lost, and is named": slip(
        f"{PENDING}P lose r1; P take 1 cleaning/1 effect=take",
        "platform 5 | the platform takes an answer that has not come | timeout | take",
    ),
    "an answer that is named as a further request": slip(
        f"{ANSWERED}P take 1 ready/1 effect=send", f"platform 5 | {NAMED} | take or timeout | send"
    ),
    "an answer that is named where no request is out": slip(
        f"{CREATED}P take 1 cleaning/1 effect=take", f"platform 6 | {NAMED} | {ANOTHER} | take"
    ),
    "an answer that leaves another record, and is named": differing(
        f"{ANSWERED}P take 1 polling/1 effect=take", f"platform 5 | take {INSTANCE} 0 | state ready | state polling"
    ),
    "a record that nothing leads to, and that is named": skipped(
        f"{CREATED}P claim polling/2/poll effect=send", f"platform 6 | send {INSTANCE}"
    ),
}


# What both sides disagree about at the end, beside a first difference that says how it came about.
DISAGREE = {
    "ready without a resource": (
        CREATED + "B look absent",
        [f"{INSTANCE}: the platform records ready, and the resource is absent"],
    ),
    "ready without a row": (
        CREATED + "B arrive 2 r1 provision; B change 2 tombstone",
        [f"{INSTANCE}: the platform records ready, and the broker has the row none, pending -"],
    ),
    "gone with a row and a resource": (
        PENDING + "B create; B change 1 ready; P lose r1; P take 1 gone/1",
        [
            f"{INSTANCE}: the platform records gone, and the broker has the row ready, pending -",
            f"{INSTANCE}: the platform records gone, and the resource is whole",
        ],
    ),
    "gone with pending work": (
        PENDING + "P lose r1; P take 1 gone/1",
        [f"{INSTANCE}: the platform records gone, and the broker has the row none, pending provision"],
    ),
    "other credentials": (
        BOUND.replace("P take 1 ready/1 @c1", "P take 1 ready/1 @c3"),
        [f"{INSTANCE}/{BINDING}: the platform records other credentials than the resource has"],
    ),
}


STORIES = {
    **{name: planted.story for name, planted in SLIPS.items()},
    **{name: story for name, (story, _) in DISAGREE.items()},
}
INSTANCES = {name: f"{INSTANCE[:-3]}{number:03x}" for number, name in enumerate(STORIES, 0x100)}
"""Each story is that of an instance of its own."""


@pytest.fixture(scope="module")
def report(replay: Path, library: Path, tmp_path_factory: pytest.TempPathFactory) -> dict[str, Any]:
    """What osb-audit reports of all stories."""
    top = tmp_path_factory.mktemp("stories")
    for name, story in STORIES.items():
        folder = top / INSTANCES[name]
        folder.mkdir()
        begun = 1_700_000_000_000_000 + int(INSTANCES[name][-3:], 16) * 1_000_000_000
        of_broker = started(locks_can_be_lost="B7" not in story)
        journal = Journal(SLIPS[name].plan if name in SLIPS else "sync", INSTANCES[name], of_broker, begun)
        journal.tell(story).files(folder)
    ran = audited("--json", "--jobs", "1", *map(str, sorted(top.iterdir())))
    assert (ran.status, ran.err) == (1, ""), ran
    return ran.report


def difference(report: dict[str, Any], name: str) -> dict[str, Any]:
    """The one difference of a story. It has INSTANCE in place of the instance."""
    (found,) = (reported for reported in report["differences"] if reported["instance"] == INSTANCES[name])
    return {**found, "event": found["event"].replace(INSTANCES[name], INSTANCE)}


@pytest.mark.parametrize("name", SLIPS)
def test_slip(report: dict[str, Any], name: str) -> None:
    slip, found = SLIPS[name], difference(report, name)
    path, line = slip.position
    assert (found["line"], found["event"]) == (line, slip.event), found
    assert f"/{INSTANCES[name]}/{path}-" in found["file"] and slip.why in found["why"], found
    assert not slip.model or found["model"] == slip.model, found
    assert not slip.journal or found["journal"] == slip.journal, found
    assert found["trace"][0].startswith("line\tevent\tstep\tstate")


@pytest.mark.parametrize("name", DISAGREE)
def test_disagreement(report: dict[str, Any], name: str) -> None:
    """Beside it, a first difference says how it came about."""
    assert difference(report, name)
    found = [
        disagreement["why"] for disagreement in report["disagreements"] if disagreement["instance"] == INSTANCES[name]
    ]
    assert [text.replace(INSTANCES[name], INSTANCE) for text in found] == DISAGREE[name][1]
