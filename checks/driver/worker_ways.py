"""The shortest way to an untrue outcome for each obligation of a worker or of its backend that is left out, and why the
outcome isn't true.
"""

from __future__ import annotations

from typing import NamedTuple

from driver import worker_left_out as left_out
from driver.worker import Design

CREATES, DELETES = "looks: absent | creates: the resource is", "looks: whole | deletes: the resource is"
KILLED = "the worker is killed, and another one begins"
# All is as it should be, and not on disk.
WHOLE_UNSYNCED, ABSENT_UNSYNCED = f"{CREATES} whole | the create fails", f"{DELETES} absent | the delete fails"
A_PART = f"{CREATES} part | the create returns"
A_PART_LEFT = f"{DELETES} part | the delete returns"


class Way(NamedTuple):
    """The steps, which bars separate, and what is wrong after them."""

    steps: str
    wrong: str


def becomes(steps: str, outcome: str, resource: str) -> Way:
    return Way(steps, f"the outcome is '{outcome}', and the resource becomes {resource}")


def untrue(steps: str, outcome: str, resource: str) -> Way:
    return Way(steps, f"the outcome is '{outcome}', and the resource is {resource}")


CREATION: dict[type[Design], Way] = {
    left_out.LookBesideACall: becomes(
        f"looks: absent | {KILLED} | looks: absent | the create returns | looks: absent", "before", "part"
    ),
    left_out.ReturnBeforeDisk: becomes(f"{CREATES} whole | the create returns | looks: whole", "done", "absent"),
    left_out.OwnChangesOnDisk: becomes(
        f"{CREATES} part | the create fails | {KILLED} | looks: part | creates: the resource is whole | "
        "the create returns | looks: whole",
        "done",
        "part",
    ),
    left_out.CallBelieved: untrue("looks: absent | the create returns", "done", "absent"),
    left_out.RejectionBelieved: becomes("looks: absent | the create is rejected, and goes on", "refused 400", "part"),
    left_out.UndoingBelieved: untrue(f"{A_PART} | looks: part | the delete returns", "before", "part"),
    left_out.FailureWithoutSync: becomes(f"{WHOLE_UNSYNCED} | looks: whole", "done", "absent"),
    left_out.FirstLookCounts: becomes(f"{WHOLE_UNSYNCED} | {KILLED} | looks: whole", "done", "absent"),
    left_out.FailedLookCounts: untrue(f"{A_PART} | looks, and that fails", "before", "part"),
    left_out.FailedSyncCounts: becomes(f"{WHOLE_UNSYNCED} | syncs, and that fails | looks: whole", "done", "absent"),
    left_out.PartIsNothing: untrue(f"{A_PART} | looks: part", "before", "part"),
    left_out.PartIsLeft: Way("looks: absent", "no outcome comes about"),
}
"""From a world in which nothing exists."""

DELETION: dict[type[Design], Way] = {
    left_out.LookBesideACall: becomes(
        f"looks: whole | {KILLED} | looks: whole | the delete returns | looks: whole", "before", "absent"
    ),
    left_out.ReturnBeforeDisk: becomes(f"{DELETES} absent | the delete returns | looks: absent", "done", "part"),
    left_out.OwnChangesOnDisk: becomes(
        f"{DELETES} part | the delete fails | {KILLED} | looks: part | deletes: the resource is absent | "
        "the delete returns | looks: absent",
        "done",
        "part",
    ),
    left_out.CallBelieved: untrue("looks: whole | the delete returns", "done", "whole"),
    left_out.FailureWithoutSync: becomes(f"{ABSENT_UNSYNCED} | looks: absent", "done", "part"),
    left_out.FirstLookCounts: becomes(f"{ABSENT_UNSYNCED} | {KILLED} | looks: absent", "done", "part"),
    left_out.FailedLookCounts: untrue("looks: whole | the delete returns | looks, and that fails", "done", "whole"),
    left_out.FailedSyncCounts: becomes(f"{ABSENT_UNSYNCED} | syncs, and that fails | looks: absent", "done", "part"),
    left_out.PartIsNothing: untrue(f"{A_PART_LEFT} | looks: part", "done", "part"),
    left_out.PartIsUnchanged: untrue(f"{A_PART_LEFT} | looks: part", "before", "part"),
}
"""From a world in which all exists."""
