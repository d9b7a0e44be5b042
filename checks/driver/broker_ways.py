"""The shortest way to a wrong world for each obligation that is left out, and why that world is wrong.

All ways are of a synchronous plan, two drivers and one attempt, and nothing is put off.
"""

from __future__ import annotations

import re

from driver import broker_left_out as left_out
from driver.broker_world import Design

LOCKED = "the platform sends a provision | 1 begins for attempt 1 | 1 gets the lock"
BEGUN = f"{LOCKED} | 1 writes its work"
NOTHING_MADE = f"{BEGUN} | 1 sees its work end: before"
REFUSED = f"{BEGUN} | 1 sees its work end: refused 400"
# The request arrives again.
TWICE = "the platform sends a provision | 1 begins for attempt 1 | 2 begins for attempt 1 | 1 gets the lock"
# A take-up begins before the work that it will find.
BESIDE_A_TAKE_UP = "the platform sends a provision | 1 begins a take-up | 2 begins for attempt 1"
WORKING = f"{BESIDE_A_TAKE_UP} | 2 gets the lock | 2 writes its work"
# Then the request's driver knows its outcome, has lost the lock, and the take-up has it.
LOOKED, LOST = f"{WORKING} | 2 sees its work end: before", "2 loses the lock | 1 gets the lock"
WRITTEN_OVER = "1 writes its number | 1 works: the resource is part | 2 writes 'end before'"
END_OF_THE_OTHER = f"{LOOKED} | {LOST} | {WRITTEN_OVER}"
# The take-up ends the work, and the request's driver works on.
ENDED_BY_THE_TAKE_UP = (
    "1 writes its number | 1 sees its work end: before | 1 writes 'end before' | 2 works: the resource is part"
)
UNSURE = "writes 'end before'; the commit is unsure, and"

NO_WORK = "the network has no 'work part'"
NO_END = "the network has no 'end before'"
NO_ERROR = "the network has given no {} error to attempt 1"
SOMETHING_EXISTS = "recorded as gone or not at all, and something exists"

_WAYS: dict[type[Design], tuple[str, str]] = {
    left_out.UndoneCommit: (
        f"{REFUSED} | 1 writes 'end refused 400' | the platform takes 400 error | a power cut undoes the latest commit",
        SOMETHING_EXISTS,
    ),
    left_out.DeletedTombstone: (
        f"{TWICE} | 1 writes its work | 1 sees its work end: refused 400 | 1 writes 'end refused 400' | "
        "the platform takes 400 error | 2 gets the lock | the row with the tombstone is deleted | 2 writes its work",
        SOMETHING_EXISTS,
    ),
    left_out.UnlockedRow: (
        f"{TWICE} | 1 reads the row | 1 writes its work | 1 sees its work end: before | 1 reads the row | "
        "2 goes on without the lock | 2 reads the row | 1 writes 'end before' | 2 writes its answer 503 error",
        NO_ERROR.format(503),
    ),
    left_out.UncommittedRead: (
        f"{TWICE} | 2 goes on without the lock | 1 hasn't committed, and driver 2 answers 503 error",
        NO_ERROR.format(503),
    ),
    left_out.LateCommit: (
        f"{NOTHING_MADE} | 1 {UNSURE} wasn't written | 1 writes 'end before' | "
        "the unsure commit of driver 1 is written late",
        NO_END,
    ),
    left_out.WorkBeforeCommit: (
        f"{LOCKED} | 1 begins its work before the commit | 1 works: the resource is part",
        NO_WORK,
    ),
    left_out.AnswerBeforeCommit: (
        f"{REFUSED} | 1 answers 400 error before the commit | the platform takes 400 error",
        SOMETHING_EXISTS,
    ),
    left_out.UnsureCommitCounts: (
        f"{BEGUN}; the commit is unsure, and wasn't written | 1 works: the resource is part",
        NO_WORK,
    ),
    left_out.FailedCommitCounts: (f"{BEGUN}; the commit fails | 1 works: the resource is part", NO_WORK),
    left_out.WorkWithoutLock: (
        f"{BESIDE_A_TAKE_UP} | 1 gets the lock | 2 goes on without the lock | 2 writes its work | "
        f"{ENDED_BY_THE_TAKE_UP}",
        NO_WORK,
    ),
    left_out.WorkOutlivesLock: (f"{WORKING} | 1 gets the lock | {ENDED_BY_THE_TAKE_UP}", NO_WORK),
    left_out.UncomparedNumber: (END_OF_THE_OTHER, NO_END),
    left_out.UncomparedNumberAfterUnsureEnd: (
        f"{LOOKED} | 2 {UNSURE} wasn't written | {LOST} | {WRITTEN_OVER}",
        NO_END,
    ),
    left_out.OneNumber: (END_OF_THE_OTHER, NO_END),
    left_out.TakeUpWithoutNumber: (END_OF_THE_OTHER, NO_END),
    left_out.TakeUpReadsEarly: (
        f"{LOOKED} | {LOST} | 1 reads the row before it writes its number | 2 writes 'end before' | "
        "1 writes its number | 1 works: the resource is part",
        NO_WORK,
    ),
    left_out.TakeUpLooksEarly: (
        f"{WORKING} | 2 loses the lock | 2 begins a take-up | 1 gets the lock | "
        "1 sees before it writes its number: before | 1 loses the lock | 2 gets the lock | 2 writes its number | "
        "1 writes its number | 1 writes 'end before' | 2 works: the resource is part",
        NO_WORK,
    ),
    left_out.FalseOutcome: (
        f"{BEGUN} | 1 sees its work end: done | 1 writes 'end done'",
        "the network has no 'end done'",
    ),
    left_out.EndWrittenAgain: (f"{NOTHING_MADE} | 1 {UNSURE} was written | 1 writes 'end before'", NO_END),
    left_out.EarlierAnswerWhilePending: (
        f"{NOTHING_MADE} | 1 {UNSURE} wasn't written | 1 reads that its end was written",
        NO_ERROR.format(500),
    ),
}
"""The part of the design that is left out, the steps, and what is wrong after them. Bars separate the steps, and a
number at the begin of one stands for its driver.
"""

WAYS = {
    design: (tuple(re.sub(r"^(?=\d)", "driver ", step) for step in steps.split(" | ")), wrong)
    for design, (steps, wrong) in _WAYS.items()
}
