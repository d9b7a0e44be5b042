"""Designs of a broker's drivers at an instance and a binding without a part. Each class leaves out one obligation."""

from __future__ import annotations

from driver.broker_left_out import UnlockedRow
from driver.broker_model import Task
from driver.events import can_have_ended
from driver.service_world import BindingLife, Design, Life
from network import model
from network.model import Held, Request, Row


class EarlyLife(UnlockedRow, Life):
    """Between the read of the rows and the write, another transaction writes."""


class EarlyBindingLife(UnlockedRow, BindingLife):
    """The same, of a binding."""


class BindingsReadEarly(Design):
    """The transaction over an instance reads the rows of its bindings, which aren't locked."""

    life = EarlyLife


class InstanceReadEarly(Design):
    """The transaction over a binding reads the row of its instance, which isn't locked."""

    binding_life = EarlyBindingLife


class BindingsUnread(Design):
    """The transaction over an instance doesn't read the rows of its bindings."""

    def may_work(self, binding: Held) -> bool:
        return True


class InstanceUnread(Design):
    """The transaction over a binding doesn't read the row of its instance."""

    def may_bind(self, instance: Held) -> bool:
        return True


class PendingBindUncounted(Design):
    """A Bind whose work is pending doesn't count as a binding."""

    def may_work(self, binding: Held) -> bool:
        return binding.row is None


class PendingDeletionUncounted(Design):
    """An instance whose deletion is pending counts as there."""

    def may_bind(self, instance: Held) -> bool:
        return instance.row == Row(0, "ready")


class UntruthfulLife(Life):
    """A deletion that has left a part may be reported as one that has changed nothing."""

    def outcomes(self, task: Task, resource: str) -> list[str]:
        if not isinstance(task, Request):
            return super().outcomes(task, resource)
        return [outcome for outcome in model.OUTCOMES if can_have_ended(self.plan.mode, task, outcome, resource)]


class UntruthfulDeletion(Design):
    """The deletion of an instance that has left a part counts as one that has changed nothing."""

    life = UntruthfulLife
