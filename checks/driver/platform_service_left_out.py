"""Designs of a platform's drivers at an instance and a binding without a part. Each class leaves out one obligation."""

from __future__ import annotations

from driver.platform_left_out import UnlockedRow
from driver.platform_model import Recorded, Transaction
from driver.platform_service_world import BindingLife, Design, Life
from driver.platform_world import Driver, World
from network.model import Answer

# ---- what binds a binding to its instance


class FreeLife(Life):
    def is_permitted(self) -> bool:
        return True


class FreeBindingLife(BindingLife):
    def is_permitted(self) -> bool:
        return True


class RemovedWithItsBinding(Design):
    """An instance is removed, whatever is recorded of its binding."""

    life = FreeLife


class CreatedBeforeItsInstance(Design):
    """A binding is created, whatever is recorded of its instance."""

    binding_life = FreeBindingLife


class EarlyLife(UnlockedRow, Life):
    """Between the read of the rows and the write, another transaction writes."""


class EarlyBindingLife(UnlockedRow, BindingLife):
    """The same, of a binding."""


class BindingsReadEarly(Design):
    """The transaction over an instance reads the row of its binding, which isn't locked."""

    life = EarlyLife


class InstanceReadEarly(Design):
    """The transaction over a binding reads the row of its instance, which isn't locked."""

    binding_life = EarlyBindingLife


# ---- credentials


class UncheckedCredentials(BindingLife):
    def lacks(self, row: Recorded, driver: Driver, answer: Answer) -> bool:
        return False


class ReadyWithoutCredentials(Design):
    """An answer that makes a binding ready is taken without its credentials."""

    binding_life = UncheckedCredentials


class UnfetchedLife(BindingLife):
    def and_fetches(self, tx: Transaction) -> Transaction:
        return tx

    def lacks(self, row: Recorded, driver: Driver, answer: Answer) -> bool:
        return row.state != "polling" and super().lacks(row, driver, answer)


class TakenBeforeItsFetch(Design):
    """The answer that ends the polling is taken without that to a Fetch."""

    binding_life = UnfetchedLife


class LateCredentialsLife(BindingLife):
    def beside(self, world: World, row: Recorded | None, new: int | None) -> int | None:
        return super().beside(world, row, None)


class WrittenLater(Design):
    """The credentials are written in another transaction than the record."""

    binding_life = LateCredentialsLife


class UselessLife(BindingLife):
    def is_useless(self, row: Recorded, answer: Answer) -> bool:
        return False


class UselessAnswerTaken(Design):
    """A Bind's 202 is taken though the binding can't be fetched."""

    binding_life = UselessLife
