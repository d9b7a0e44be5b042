"""The shortest way to harm for each obligation of a platform that is left out: to a false record, to something that
exists and isn't recorded, or to an instance that never comes to an end.
"""

from __future__ import annotations

import re
from typing import NamedTuple

from driver import platform_left_out as left_out
from driver.events import Plan
from driver.platform_world import Design

SYNC, ASYNC = Plan("sync"), Plan("async")

CREATED = "1 claims: create provision 1 | the provision 1 arrives"
DONE = f"{CREATED} | the work leaves the resource whole | the work ends: done"
# The answer to the creation is late, and the platform deletes what may exist.
GOT_201, DELETED = f"{DONE}, and driver 1 gets 201 empty", "2 claims: timeout, send deprovision 2"
DELETION_ARRIVES = f"{DELETED} | the deprovision 2 arrives"
# The creation was repeated, and its second answer looks like that to a deletion.
GOT_200 = f"{DONE} | the provision 1 arrives, and driver 1 gets 200 empty"
# An asynchronous creation, and its Poll.
POLLED = "1 takes 202 empty | 1 claims: send poll 2 | the poll 2 arrives, and driver 1 gets 200 succeeded"
ACCEPTED = f"{CREATED} | the work ends: done, and driver 1 gets 202 empty"
SUCCEEDED = f"{ACCEPTED} | the work leaves the resource whole | the operation succeeds | {POLLED}"
UNSURE = "1 claims: create provision 1; the commit is unsure, and"

FALSELY_READY = "recorded as ready, and it doesn't exist"
SOMETHING_EXISTS = "recorded as gone or not at all, and something exists"


class Way(NamedTuple):
    """The steps, what is wrong after them, and the bounds: two drivers, and so many attempts."""

    steps: tuple[str, ...]
    wrong: str
    plan: Plan = SYNC
    attempts: int = 1


def way(steps: str, wrong: str, plan: Plan = SYNC, attempts: int = 1) -> Way:
    """Bars separate the steps, and a number at the begin of one stands for its driver."""
    return Way(tuple(re.sub(r"^(?=\d)", "driver ", step) for step in steps.split(" | ")), wrong, plan, attempts)


HARM: dict[type[Design], Way] = {
    left_out.UndoneCommit: way(f"{CREATED} | a power cut undoes the latest commit", SOMETHING_EXISTS),
    left_out.UnlockedRow: way(
        f"1 reads the row, to claim: create | {GOT_201} | 2 reads the row, to claim: timeout, send | "
        f"1 reads the row, to take the answer | {DELETION_ARRIVES} | 1 takes 201 empty",
        FALSELY_READY,
        attempts=2,
    ),
    left_out.LateCommit: way(
        f"{GOT_201} | 1 takes 201 empty; the commit is unsure, and wasn't written | {DELETION_ARRIVES} | "
        "the unsure commit of driver 1 is written late",
        FALSELY_READY,
        attempts=2,
    ),
    left_out.SentBeforeCommit: way(
        "1 sends the provision 1 before the commit | the provision 1 arrives", SOMETHING_EXISTS
    ),
    left_out.UnsureClaimCounts: way(f"{UNSURE} wasn't written | the provision 1 arrives", SOMETHING_EXISTS),
    left_out.FailedClaimCounts: way(
        "1 claims: create provision 1; the commit fails | the provision 1 arrives", SOMETHING_EXISTS
    ),
    left_out.UsedId: way(
        f"{GOT_201} | {DELETION_ARRIVES} | the work leaves the resource absent | "
        "the work ends: done, and driver 2 gets 200 empty | 2 takes 200 empty | 2 claims: create provision 1 | "
        "1 takes 201 empty",
        FALSELY_READY,
        attempts=2,
    ),
    left_out.KeptInFlight: way("1 claims: create provision 1", "three rounds don't bring the instance to an end"),
    left_out.CleanedUpInFlight: way(
        f"{SUCCEEDED} | 2 claims: expire | 1 takes 200 succeeded", SOMETHING_EXISTS, ASYNC, attempts=2
    ),
    left_out.GivenUpAsGone: way(
        f"{UNSURE} was written | the provision 1 arrives | 1 gives attempt 1 up", SOMETHING_EXISTS
    ),
    left_out.OneAttempt: way(
        f"{GOT_200} | 2 claims: timeout, send deprovision 1 | 1 takes 200 empty", SOMETHING_EXISTS
    ),
    left_out.UncomparedAttempt: way(f"{GOT_200} | {DELETED} | 1 takes 200 empty", SOMETHING_EXISTS, attempts=2),
    left_out.TakenAfterGivenUp: way(
        f"{SUCCEEDED} | 2 claims: timeout, expire | 1 takes 200 succeeded", SOMETHING_EXISTS, ASYNC, attempts=2
    ),
    left_out.TakenByTheClaimedRow: way(
        f"{GOT_201} | {DELETION_ARRIVES} | 1 takes 201 empty", FALSELY_READY, attempts=2
    ),
    left_out.TakenAgain: way(
        f"{GOT_201} | 1 takes 201 empty; the commit fails | {DELETION_ARRIVES} | 1 takes 201 empty",
        FALSELY_READY,
        attempts=2,
    ),
    left_out.AnswerToAnother: way(
        f"{DONE} | {DELETED} | the provision 1 arrives, and driver 2 gets 200 empty | 2 takes 200 empty",
        SOMETHING_EXISTS,
        attempts=2,
    ),
    left_out.MisreadBody: way(f"{ACCEPTED} | {POLLED} | 1 takes 200 succeeded", FALSELY_READY, ASYNC, attempts=2),
    left_out.GatewayOfAnyStatus: way(
        f"{CREATED} | 1 gets 410 malformed of a gateway | 1 takes 410 malformed", SOMETHING_EXISTS
    ),
}
"""If the program goes on although a step isn't the network's."""

HARMLESS: dict[type[Design], Way] = {
    left_out.UncommittedRead: way(
        "2 reads what driver 1 hasn't committed, and claims: timeout", "the network has no 'timeout'"
    ),
    left_out.UncomparedNumber: way(
        f"{UNSURE} wasn't written | 2 claims: create provision 1 | 1 gives attempt 1 up",
        "it gives up the request of another driver",
    ),
}
"""To the first step that isn't the network's, or isn't the driver's own. It does no harm."""
