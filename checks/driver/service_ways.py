"""The shortest way to a broken promise for each obligation at an instance and a binding that is left out."""

from __future__ import annotations

from driver import service_left_out as left_out
from driver.service_world import Design

BEGUN = "instance: begins for a provision | instance: gets the lock"
DONE = (
    "instance: writes its work | instance: works: the resource is whole | instance: sees its work end: done{} | "
    "instance: writes 'end done' | instance: begins for a deprovision | instance: gets the lock"
)
# The instance exists, and its deletion is about to begin.
DELETED = f"{BEGUN} | {DONE.format('')}"
READ = "instance: reads the row"
BIND = "binding: begins for a provision | binding: gets the lock"
BOUND, DELETION = "binding: writes its work", "instance: writes its work"

ISNT_THERE = "a binding is held or exists, and its instance isn't there"
ISNT_COMPLETE = "a binding is held or exists, and its instance doesn't exist, complete"

WAYS: dict[type[Design], tuple[str, str]] = {
    left_out.BindingsReadEarly: (
        f"{BEGUN} | {READ} | {DONE.format(f' | {READ}')} | {READ} | {BIND} | {BOUND} | {DELETION}",
        ISNT_THERE,
    ),
    left_out.InstanceReadEarly: (f"{DELETED} | {BIND} | binding: reads the row | {DELETION} | {BOUND}", ISNT_THERE),
    left_out.BindingsUnread: (f"{DELETED} | {BIND} | {BOUND} | {DELETION}", ISNT_THERE),
    left_out.InstanceUnread: (f"{BIND} | {BOUND}", ISNT_THERE),
    left_out.PendingBindUncounted: (f"{DELETED} | {BIND} | {BOUND} | {DELETION}", ISNT_THERE),
    left_out.PendingDeletionUncounted: (f"{DELETED} | {DELETION} | {BIND} | {BOUND}", ISNT_THERE),
    left_out.UntruthfulDeletion: (
        f"{DELETED} | {DELETION} | instance: works: the resource is absent | instance: sees its work end: before | "
        f"instance: writes 'end before' | {BIND} | {BOUND}",
        ISNT_COMPLETE,
    ),
}
"""The steps, which bars separate, and what is wrong after them. All are of synchronous plans."""
