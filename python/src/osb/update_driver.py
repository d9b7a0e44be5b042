"""What a broker does next at an instance that can be updated (docs/agreement.md)."""
from __future__ import annotations

from dataclasses import dataclass, replace

from osb._crossing import mode_to
from osb._header import CSettings, CUpdateDriver, CUpdateReading, CUpdateTransaction
from osb._lib import lib
from osb.driver import Driver, Reading, driver_from, driver_to, number_of, reading_to
from osb.enums import Allowed, Call, Effect, Mode, Outcome, Stage, There, UpdateOutcome
from osb.errors import check
from osb.holding import NO_ATTRIBUTES, Holding, digest_to, holding_from
from osb.update import (
    Settings,
    Update,
    UpdateHolding,
    settings_from,
    settings_to,
    update_holding_from,
    update_holding_to,
    update_to,
)


@dataclass(frozen=True)
class UpdateDriver:
    """A `Driver` of an instance that can be updated: the way of one request of the instance, of one Update of it, or of
    one take-up.

    It serves every instance, also one that was never updated. The program carries out its stages and its calls as it
    does those of a `Driver`. Bindings have a `Driver`. A driver that no call gives is refused with BAD_DRIVER.
    """

    driver: Driver
    """That of the instance. At a stage of an Update, it has what counts of that stage: the stage, the call, the look,
    the rejection, an answer of an earlier try, and `ok`.
    """
    is_update: bool = False
    """Whether the stage is one of an Update: at WORK, END and FINISH, the work is that of an Update; at ANSWER, the
    answer is 422 with the error MaintenanceInfoConflict.
    """
    is_pending: bool = False
    """At WORK of an Update: whether the work is pending. If not, it is the operation that runs."""
    to: Settings | None = None
    """At WORK of an Update: the settings to which it leads."""
    before: Settings | None = None
    """At WORK of an Update: the settings of the row, or None if an Update before has failed, since nobody knows then
    which settings the resource has.
    """
    outcome: UpdateOutcome | None = None
    """At END of an Update: how the work went."""

    @property
    def stage(self) -> Stage:
        """The action that the program carries out next."""
        return self.driver.stage

    @property
    def call(self) -> Call | None:
        """At WORK: the call of the backend to make next. If it is None, nobody knows how the work ended: step the
        driver no more.
        """
        return self.driver.call

    @classmethod
    def new(cls, number: bytes, *, is_request: bool, has_lock: bool) -> UpdateDriver:
        """A driver at its beginning, as `Driver.new`: of a request or an Update, or of a take-up."""
        driver = CUpdateDriver()
        check(lib.osb_update_driver_new(bytes(number_of(number)), is_request, has_lock, driver))
        return _from(driver)

    def locked(self, has_lock: bool) -> UpdateDriver:
        """Reports at AWAIT_LOCK whether the driver has the lock of its key after it has waited. A lock of which nobody
        knows isn't had. Raises WRONG_STAGE.
        """
        driver = _to(self)
        check(lib.osb_update_driver_locked(driver, has_lock))
        return _from(driver)

    def looked(self, there: There, settings: Settings | None = None) -> UpdateDriver:
        """Reports what the look of LOOK has found. The settings are those of the resource, and count only at an Update,
        if the resource is whole. If they are between, report PART. A look that shows how the work has ended moves the
        driver on, to END or FINISH. If a look has failed, nobody knows how the work ended: step the driver no more.
        Raises WRONG_STAGE.
        """
        driver = _to(self)
        has = CSettings() if settings is None else settings_to(settings)
        check(lib.osb_update_driver_looked(driver, There(there).value, has))
        return _from(driver)

    def synced(self) -> UpdateDriver:
        """Reports that what exists is on disk, with its settings (SYNC). If that failed, step the driver no more.
        Raises WRONG_STAGE.
        """
        driver = _to(self)
        check(lib.osb_update_driver_synced(driver))
        return _from(driver)

    def called(self, ok: bool, rejection: int = 0) -> UpdateDriver:
        """Reports that CREATE, DELETE or UPDATE has returned, and whether without an error. `rejection` is 400 or 422
        if the backend has rejected the creation or the update with that status, and else 0. Raises NOT_REFUSED,
        WRONG_STAGE.
        """
        driver = _to(self)
        check(lib.osb_update_driver_called(driver, ok, rejection))
        return _from(driver)

    def read(self, row: UpdateReading) -> UpdateTransaction:
        """The transaction of a driver, at BEGIN, END, FINISH and UNSURE.

        If the transaction that comes back `writes`, write both holdings and the number, and commit. Work that only
        starts an operation needs no call of the backend: the driver that is committed is at END then. Raises
        BAD_HOLDING, WRONG_STAGE, and MISFIT if the row doesn't fit its plan, or its pending work is of another id. Such
        a row is left alone.
        """
        transaction = CUpdateTransaction()
        check(lib.osb_update_driver_read(_to(self), _reading_to(row), transaction))
        return _transaction_from(transaction)


@dataclass(frozen=True)
class UpdateReading:
    """What a transaction of an `UpdateDriver` is given."""

    reading: Reading
    """What a `Driver` of the instance is given. Its request counts only if `update` is None."""
    change: UpdateHolding
    """What is held of the updates, read and locked in this transaction. If the row keeps nothing of updates, it is
    `UpdateHolding(settings)` with the settings of the row's Provision, or without a row with those that the Provision
    asks for.
    """
    update_mode: Mode = Mode.SYNC
    """How the Update is done whose work is pending. It counts only if such work is pending."""
    update: Update | None = None
    """The Update that is asked for, or None for a request of the instance. With `allowed`, `parameters` and `version`
    it counts only at the first transaction of a request.
    """
    allowed: Allowed = Allowed.SYNC
    """What the catalogue has for the Update."""
    parameters: bytes = NO_ATTRIBUTES
    """The digest of the parameters that a Provision asks for."""
    version: bytes = NO_ATTRIBUTES
    """The digest of the `maintenance_info.version` that a Provision asks for."""


@dataclass(frozen=True)
class UpdateTransaction:
    """What a transaction of an `UpdateDriver` comes to, once the row is read."""

    holding: Holding
    change: UpdateHolding
    number: bytes
    """What the row has to have, with `holding` and `change`."""
    writes: bool
    """Whether the row has to be written: one of the holdings or the number changed."""
    writes_change: bool
    """Whether the holding of the updates changed. If it didn't, a row that keeps nothing of updates goes on to keep
    nothing.
    """
    committed: UpdateDriver
    """The driver once the commit has returned."""
    unsure: UpdateDriver
    """The driver if nobody knows whether the transaction was committed."""
    effect: Effect
    """The event that the transaction is, once it is committed."""
    outcome: Outcome | None
    """Of the effect END: how the work went."""
    update_outcome: UpdateOutcome | None
    """Of the effect END_UPDATE: how the work went."""
    ok: bool
    """Of the effects FINISH and FINISH_UPDATE: whether the operation succeeded."""


def _reading_to(row: UpdateReading) -> CUpdateReading:
    made = CUpdateReading(
        reading=reading_to(row.reading),
        change=update_holding_to(row.change),
        parameters=digest_to(row.parameters),
        version=digest_to(row.version),
        update_mode=mode_to(row.update_mode),
        allowed=Allowed(row.allowed).value,
        is_update=row.update is not None,
    )
    if row.update is not None:
        made.update = update_to(row.update)
    return made


def _to(driver: UpdateDriver) -> CUpdateDriver:
    made = CUpdateDriver(
        driver=driver_to(driver.driver),
        is_update=bool(driver.is_update),
        has_before=driver.before is not None,
    )
    if driver.is_update:
        made.driver.is_pending = bool(driver.is_pending)
    if driver.to is not None:
        made.to = settings_to(driver.to)
    if driver.before is not None:
        made.before = settings_to(driver.before)
    if driver.outcome is not None:
        made.outcome = UpdateOutcome(driver.outcome).value
    return made


def _from(driver: CUpdateDriver) -> UpdateDriver:
    of_instance = driver_from(driver.driver)
    if not driver.is_update:
        return UpdateDriver(of_instance)
    answer = of_instance.answer if driver.driver.has_answer else None
    stage = of_instance.stage
    return UpdateDriver(
        replace(of_instance, task=None, outcome=None, answer=answer),
        True,
        bool(driver.driver.is_pending),
        settings_from(driver.to) if stage is Stage.WORK else None,
        settings_from(driver.before) if driver.has_before else None,
        UpdateOutcome(driver.outcome) if stage is Stage.END else None,
    )


def _transaction_from(transaction: CUpdateTransaction) -> UpdateTransaction:
    effect = Effect(transaction.effect)
    return UpdateTransaction(
        holding_from(transaction.holding),
        update_holding_from(transaction.change),
        bytes(transaction.number),
        bool(transaction.writes),
        bool(transaction.writes_change),
        _from(transaction.committed),
        _from(transaction.unsure),
        effect,
        Outcome(transaction.outcome) if effect is Effect.END else None,
        UpdateOutcome(transaction.update_outcome) if effect is Effect.END_UPDATE else None,
        bool(transaction.ok),
    )
