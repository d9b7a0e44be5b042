"""The shortest way to a wrong world for each obligation of the drivers of an instance that can be updated.

All ways are of a synchronous plan with synchronous updates, two drivers and two requests, an Update and a Deprovision.
The instance was created before. Bars separate the steps, and a number at the begin of one stands for its driver.
"""

from __future__ import annotations

import re

from driver import update_left_out as left_out
from driver.update_world import Design

UPDATES = "1 begins for update to q | 1 gets the lock"
BEGUN = f"{UPDATES} | 1 writes its work"
TAKE_UP = "1 begins a take-up | 2 begins for update to q"
WRITTEN_BY_OTHER = "2 writes its work | 1 writes its number | 1 sees its work end: before"
ENDED_BY_OTHER = f"{WRITTEN_BY_OTHER} | 1 writes 'update end before'"
WORKS_ON = "2 works: the resource is whole, with q"
# The Update's driver knows its outcome, has lost the lock, and the take-up has changed the settings.
LOST = (
    f"{TAKE_UP} | 2 gets the lock | 2 writes its work | 2 sees its work end: before | 2 loses the lock | "
    "1 gets the lock | 1 writes its number | 1 works: the resource is whole, with q | 2 writes 'update end before'"
)

NO_WORK = "the network has no work of update"
NO_END = "the network has no 'update end before'"
NO_ANSWER = "the network has given no {} error to the request"

_WAYS: dict[type[Design], tuple[str, str]] = {
    left_out.WorkBeforeCommit: (
        f"{UPDATES} | 1 begins its work before the commit | 1 works: the resource is whole, with q",
        NO_WORK,
    ),
    left_out.AnswerBeforeCommit: (
        f"{BEGUN} | 1 sees its work end: before | 1 answers 500 error before the commit",
        NO_ANSWER.format(500),
    ),
    left_out.UnsureCommitCounts: (
        f"{UPDATES} | 1 writes its answer 400 error; the commit is unsure, and wasn't written",
        NO_ANSWER.format(400),
    ),
    left_out.FailedCommitCounts: (
        f"{UPDATES} | 1 writes its answer 400 error; the commit fails",
        NO_ANSWER.format(400),
    ),
    left_out.WorkWithoutLock: (
        f"{TAKE_UP} | 1 gets the lock | 2 goes on without the lock | {ENDED_BY_OTHER} | {WORKS_ON}",
        NO_WORK,
    ),
    left_out.WorkOutlivesLock: (
        f"{TAKE_UP} | 2 gets the lock | 2 writes its work | 1 gets the lock | 1 writes its number | "
        f"1 sees its work end: before | 1 writes 'update end before' | {WORKS_ON}",
        NO_WORK,
    ),
    left_out.NumberBeforeLock: (
        f"{TAKE_UP} | 1 gets the lock | 2 goes on without the lock | {ENDED_BY_OTHER}; the commit is unsure, and was "
        f"written | 2 gets the lock | {WORKS_ON}",
        NO_WORK,
    ),
    left_out.NumberNotWritten: (LOST, NO_END),
    left_out.UncomparedNumber: (LOST, NO_END),
    left_out.FalseOutcome: (
        f"{BEGUN} | 1 sees its work end: done | 1 writes 'update end done'",
        "the network has no 'update end done'",
    ),
    left_out.LockForEachPart: (
        f"{TAKE_UP} | 1 gets the lock | 2 gets the lock | {ENDED_BY_OTHER} | {WORKS_ON}",
        NO_WORK,
    ),
    left_out.WithoutRuleU: (
        "1 begins for update to q | 2 begins for deprovision | 2 gets the lock | 2 writes its work | "
        "2 works: the resource is absent, with - | 2 loses the lock | 1 gets the lock | 1 writes its work | "
        "1 works: the resource is part, with q | 1 sees its work end: done | 1 writes 'update end done'",
        "reported to have settings that the resource hasn't",
    ),
}

WAYS = {
    design: (tuple(re.sub(r"^(?=\d)", "driver ", step) for step in steps.split(" | ")), wrong)
    for design, (steps, wrong) in _WAYS.items()
}

# Without rule u or d, the work of the instance and that of an update go on together, and a number that the one writes
# takes the work of the other from its driver.
TOGETHER = "work of the instance and of an update are there together"
TOGETHER_WAYS = {
    left_out.WithoutRuleU: (
        "driver 1 begins for update to q",
        "driver 2 begins for deprovision",
        "driver 1 gets the lock",
        "driver 1 loses the lock",
        "driver 2 gets the lock",
        "driver 2 writes its work",
        "driver 1 writes its work",
    ),
    left_out.WithoutRuleD: (
        "driver 1 begins for update to q",
        "driver 2 begins for deprovision",
        "driver 1 gets the lock",
        "driver 1 writes its work",
        "driver 1 loses the lock",
        "driver 2 gets the lock",
        "driver 2 writes its work",
    ),
}
