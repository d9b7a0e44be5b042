"""The shortest way to harm for each obligation of a platform at an instance and a binding that is left out."""

from __future__ import annotations

from typing import NamedTuple

from driver import platform_service_left_out as left_out
from driver.events import Plan
from driver.platform_service_world import Design

SYNC, ASYNC = Plan("sync"), Plan("async")

CREATED = "claims: create provision 1 | instance: the provision 1 arrives"
DONE = f"{CREATED} | instance: the work leaves the resource whole | instance: the work ends: done, and gets 201 empty"
# The instance is recorded as ready.
READY = f"instance: {DONE} | instance: takes 201 empty"
READ = "reads the row, to"
# The same, of drivers that read the row earlier than they write.
EARLY = (
    f"instance: {READ} claim: create | instance: {DONE} | instance: {READ} take the answer | instance: takes 201 empty"
)
BOUND, BIND = "binding: claims: create provision 1", "binding: the provision 1 arrives"
REMOVED = "instance: claims: remove, send deprovision 2 | instance: the deprovision 2 arrives"
BINDING_DONE = (
    f"{BOUND} | {BIND} | binding: the work leaves the resource whole | binding: the work ends: done, and gets 201 empty"
)
ACCEPTED = f"{BOUND} | {BIND} | binding: the work ends: done, and gets 202 empty"
POLLED = (
    "binding: the work leaves the resource whole | binding: the operation succeeds | binding: takes 202 empty | "
    "binding: claims: send poll 2 | binding: the poll 2 arrives, and gets 200 succeeded"
)

ISNT_THERE = "a binding is held or exists, and its instance isn't there, complete"
NOT_ITS_CREDENTIALS = "recorded as ready, and not with its credentials"


class Way(NamedTuple):
    """The steps, which bars separate, and what is wrong after them. The plan is the binding's."""

    steps: str
    wrong: str
    plan: Plan = SYNC
    retrievable: bool = True


HARM: dict[type[Design], Way] = {
    left_out.RemovedWithItsBinding: Way(f"{READY} | {BOUND} | {REMOVED} | {BIND}", ISNT_THERE),
    left_out.CreatedBeforeItsInstance: Way(f"{BOUND} | {BIND}", ISNT_THERE),
    left_out.BindingsReadEarly: Way(
        f"{EARLY} | instance: {READ} claim: remove, send | {BOUND} | {REMOVED} | {BIND}", ISNT_THERE
    ),
    left_out.InstanceReadEarly: Way(
        f"{READY} | binding: {READ} claim: create | {REMOVED} | {BOUND} | {BIND}", ISNT_THERE
    ),
    left_out.ReadyWithoutCredentials: Way(
        f"{READY} | {BINDING_DONE} without its credentials | binding: takes 201 empty", NOT_ITS_CREDENTIALS
    ),
    left_out.TakenBeforeItsFetch: Way(
        f"{READY} | {ACCEPTED} | {POLLED} | binding: takes 200 succeeded", NOT_ITS_CREDENTIALS, ASYNC
    ),
    left_out.WrittenLater: Way(f"{READY} | {BINDING_DONE} | binding: takes 201 empty", NOT_ITS_CREDENTIALS),
}
"""If the program goes on although a step isn't the network's."""

HARMLESS: dict[type[Design], Way] = {
    left_out.UselessAnswerTaken: Way(
        f"{READY} | {ACCEPTED} | binding: takes 202 empty",
        "the row has polling, attempt 1, and the network has cleaning, attempt 1",
        ASYNC,
        retrievable=False,
    ),
}
"""To the first step that isn't the network's. It does no harm: a binding that nobody can use is cleaned up later."""
