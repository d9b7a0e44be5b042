"""A worker of a broker at the resource in its backend, step by step: what it does by what its calls return.

A worker works for one creation or one deletion, under the lock. It looks at what exists, and reports an outcome only by
a look. A call may fail and go on all the same, leave a part, or leave less on disk than a look shows. The process of
the worker may be killed, and the power may be cut: then another worker begins. No code of the crates is used.
"""

from __future__ import annotations

from collections.abc import Iterator
from typing import NamedTuple

from driver.events import can_have_ended
from network import model
from network.model import Request


class Worker(NamedTuple):
    # "look", "sync", "call" or "over". The look that comes next, or that follows, is "first", "again", "tried" or
    # "undone". A call that follows the look "tried" is an undoing.
    stage: str = "look"
    look: str = "first"
    # The outcome that the backend's rejection of the creation calls for.
    rejection: str | None = None
    # Once it is over: the outcome, or None if nobody knows how the work ended.
    outcome: str | None = None


class World(NamedTuple):
    drivers: tuple[Worker, ...] = (Worker(),)
    # What exists, and what exists after a power cut.
    resource: str = "absent"
    disk: str = "absent"
    # The call that has failed, or whose process was killed, and that goes on.
    hangs: str | None = None
    # Whether a worker that was killed has left something that isn't on disk.
    is_left: bool = False
    wrong: str | None = None

    @property
    def worker(self) -> Worker:
        return self.drivers[0]

    def with_worker(self, worker: Worker) -> World:
        return self._replace(drivers=(worker,))


Steps = Iterator[tuple[str, World]]


def over(outcome: str | None) -> Worker:
    return Worker("over", outcome=outcome)


class Design:
    """The steps of a creation or of a deletion in which no part of the design is left out."""

    def __init__(self, creates: bool) -> None:
        self.creates = creates
        self.wanted, self.unchanged = ("whole", "absent") if creates else ("absent", "whole")
        self.start = World(resource=self.unchanged, disk=self.unchanged)

    # ---- what the worker does

    def looked(self, worker: Worker, found: str) -> Worker:
        """The worker once a look has found this."""
        if worker.look == "first":
            return self.found_at_first(worker) if found == self.wanted else worker._replace(stage="call")
        if found == self.wanted:
            return over("done")
        if worker.look == "again":
            return worker._replace(stage="call", look="first")
        if found == self.unchanged:
            return over(worker.rejection or "before")
        return self.found_a_part(worker)

    def found_at_first(self, worker: Worker) -> Worker:
        """All is as it should be already: an earlier worker may have left that, and not on disk."""
        return worker._replace(stage="sync", look="again")

    def found_a_part(self, worker: Worker) -> Worker:
        """A part of a creation is deleted, once."""
        return worker._replace(stage="call") if self.creates and worker.look == "tried" else over(None)

    def call(self, worker: Worker) -> str:
        return "create" if self.creates and worker.look == "first" else "delete"

    def returned(self, worker: Worker, is_ok: bool, rejection: str | None) -> Worker:
        """The worker once its call has returned. What a call that failed has left may not be on disk."""
        look = {"first": "tried", "tried": "undone"}[worker.look]
        return Worker("look" if is_ok else self.after_failure(), look, rejection or worker.rejection)

    def after_failure(self) -> str:
        return "sync"

    # ---- the steps

    def steps(self, world: World) -> Steps:
        worker = world.worker
        if worker.stage == "over" and worker.outcome is not None:
            return
        if worker.stage == "call":
            yield from self.at_call(world)
        elif worker.stage == "look" and self.may_look(world):
            yield f"looks: {world.resource}", world.with_worker(self.looked(worker, world.resource))
            yield "looks, and that fails", world.with_worker(self.look_failed(worker))
        elif worker.stage == "sync" and world.hangs is None:
            synced = world._replace(disk=world.resource, is_left=False)
            yield "syncs", synced.with_worker(worker._replace(stage="look"))
            yield "syncs, and that fails", world.with_worker(self.sync_failed(worker))
        if world.hangs is not None:
            for resource in self.changes(world.hangs, world.resource):
                yield f"the {world.hangs} goes on: the resource is {resource}", world._replace(resource=resource)
            yield f"the {world.hangs} ends", world._replace(hangs=None)
        hangs = self.call(worker) if worker.stage == "call" else world.hangs
        is_left = world.resource != world.disk
        killed = world._replace(drivers=(Worker(),), hangs=hangs, is_left=is_left)
        yield "the worker is killed, and another one begins", killed
        for resource in self.after_power_cut(world):
            yield f"a power cut leaves the resource {resource}", World((Worker(),), resource, resource)

    def at_call(self, world: World) -> Steps:
        call = self.call(world.worker)
        for resource in self.changes(call, world.resource):
            yield f"{call}s: the resource is {resource}", world._replace(resource=resource)
        disk = self.disk_after(world)
        ok = world._replace(disk=disk, is_left=world.is_left and disk != world.resource)
        yield f"the {call} returns", ok.with_worker(self.returned(world.worker, True, None))
        for rejection in (None, "refused 400") if call == "create" else (None,):
            failed = world.with_worker(self.returned(world.worker, False, rejection))
            word = f"the {call} is rejected" if rejection else f"the {call} fails"
            yield word, failed
            yield f"{word}, and goes on", failed._replace(hangs=call)

    def changes(self, call: str, resource: str) -> list[str]:
        """What a call may make of the resource. A deletion creates nothing."""
        at = model.RESOURCES.index(resource)
        return [
            other
            for other in model.RESOURCES
            if other != resource and (call == "create" or other in model.RESOURCES[:at])
        ]

    def after_power_cut(self, world: World) -> list[str]:
        """What may exist then: what is on disk, what existed, or something between."""
        low, high = sorted(model.RESOURCES.index(resource) for resource in (world.resource, world.disk))
        return model.RESOURCES[low : high + 1]

    # ---- what the backend promises, and what the worker makes of a failure

    def may_look(self, world: World) -> bool:
        """A look waits for the calls before it to end."""
        return world.hangs is None

    def disk_after(self, world: World) -> str:
        """What is on disk once a call has succeeded: all that exists, also what an earlier worker has left."""
        return world.resource

    def look_failed(self, worker: Worker) -> Worker:
        return over(None)

    def sync_failed(self, worker: Worker) -> Worker:
        return over(None)

    # ---- what is so in each world

    def untrue(self, world: World) -> str | None:
        """Whether the outcome isn't true of what exists, or can exist after a power cut."""
        outcome = world.worker.outcome
        if outcome is None:
            return None
        if not self.is_true(outcome, world.resource):
            return f"the outcome is '{outcome}', and the resource is {world.resource}"
        found = [resource for resource in self.after_power_cut(world) if not self.is_true(outcome, resource)]
        if world.hangs is not None:
            found += [
                resource
                for resource in self.changes(world.hangs, world.resource)
                if not self.is_true(outcome, resource)
            ]
        return f"the outcome is '{outcome}', and the resource becomes {found[0]}" if found else None

    def is_true(self, outcome: str, resource: str) -> bool:
        """Whether it may be reported of pending work at any mode, of an operation, and of a broker alone."""
        request = Request("provision" if self.creates else "deprovision", True)
        if not all(can_have_ended(mode, request, outcome, resource) for mode in ("sync", "async")):
            return False
        return resource == (self.wanted if outcome == "done" else self.unchanged)

    def stuck(self, world: World) -> str | None:
        """Whether no outcome comes about though each call goes well from here on, or each but the creation."""
        for made in ("whole", "part"):
            after = world
            for _ in range(9):
                after = self.go_well(after, made)
            if after.worker.outcome is None:
                return "no outcome comes about"
        return None

    def go_well(self, world: World, made: str) -> World:
        """The next step, and what is made by a creation."""
        worker, world = world.worker, world._replace(hangs=None)
        if worker.stage == "call":
            is_creation = self.call(worker) == "create"
            resource = made if is_creation else "absent"
            is_ok = made == "whole" or not is_creation
            return world._replace(resource=resource, disk=resource).with_worker(self.returned(worker, is_ok, None))
        if worker.stage == "sync":
            return world._replace(disk=world.resource).with_worker(worker._replace(stage="look"))
        if worker.stage == "look":
            return world.with_worker(self.looked(worker, world.resource))
        return world.with_worker(worker if worker.outcome is not None else Worker())
