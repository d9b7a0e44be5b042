"""Designs of a worker without a part. Each class leaves out one obligation of the worker or of the backend."""

from __future__ import annotations

from driver.worker import Design, Worker, World, over

# ---- the backend


class LookBesideACall(Design):
    """A look doesn't wait for the calls before it to end."""

    def may_look(self, world: World) -> bool:
        return True


class ReturnBeforeDisk(Design):
    """A call that succeeds leaves what it did to be written to disk later."""

    def disk_after(self, world: World) -> str:
        return world.disk


class OwnChangesOnDisk(Design):
    """A call that succeeds has its own changes on disk, and not what an earlier worker has left."""

    def disk_after(self, world: World) -> str:
        if not world.is_left or world.disk == world.resource:
            return world.resource
        return "part" if {world.disk, world.resource} == {"absent", "whole"} else world.disk


# ---- the worker


class CallBelieved(Design):
    """A call that succeeds has done all. There is no look after it."""

    def returned(self, worker: Worker, is_ok: bool, rejection: str | None) -> Worker:
        return over("done") if is_ok and worker.look == "first" else super().returned(worker, is_ok, rejection)


class RejectionBelieved(Design):
    """A creation that is rejected has done nothing. There is no look after it."""

    def returned(self, worker: Worker, is_ok: bool, rejection: str | None) -> Worker:
        return over(rejection) if rejection else super().returned(worker, is_ok, rejection)


class UndoingBelieved(Design):
    """The deletion of a part that succeeds has left nothing. There is no look after it."""

    def returned(self, worker: Worker, is_ok: bool, rejection: str | None) -> Worker:
        return over("before") if is_ok and worker.look == "tried" else super().returned(worker, is_ok, rejection)


class FailureWithoutSync(Design):
    """What a call that failed has left isn't written to disk before the look."""

    def after_failure(self) -> str:
        return "look"


class FirstLookCounts(Design):
    """What the first look finds isn't written to disk."""

    def found_at_first(self, worker: Worker) -> Worker:
        return over("done")


class FailedLookCounts(Design):
    """A look that fails counts as one that finds nothing."""

    def look_failed(self, worker: Worker) -> Worker:
        return self.looked(worker, "absent")


class FailedSyncCounts(Design):
    """A sync that fails counts as one that succeeds."""

    def sync_failed(self, worker: Worker) -> Worker:
        return worker._replace(stage="look")


class PartIsNothing(Design):
    """A part of a creation counts as nothing, and a part that a deletion leaves counts as deleted."""

    def found_a_part(self, worker: Worker) -> Worker:
        return over(worker.rejection or "before") if self.creates else over("done")


class PartIsUnchanged(Design):
    """A deletion that leaves a part counts as one that has changed nothing."""

    def found_a_part(self, worker: Worker) -> Worker:
        return super().found_a_part(worker) if self.creates else over("before")


class PartIsLeft(Design):
    """A part of a creation isn't deleted: nobody knows how the work ended."""

    def found_a_part(self, worker: Worker) -> Worker:
        return over(None)


class NoFirstLook(Design):
    """The worker calls the backend without a look before."""

    def looked(self, worker: Worker, found: str) -> Worker:
        return worker._replace(stage="call") if worker.look == "first" else super().looked(worker, found)


class NoLookAfterSync(Design):
    """Once what the first look found is on disk, there is no second look."""

    def looked(self, worker: Worker, found: str) -> Worker:
        return over("done") if worker.look == "again" else super().looked(worker, found)
