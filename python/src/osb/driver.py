"""What a broker does next: the order in which it locks, writes, works and answers (docs/agreement.md)."""
from __future__ import annotations

import ctypes
from dataclasses import dataclass

from osb._crossing import answer_from, answer_to, id_to, mode_to, number_to, request_from, request_to
from osb._header import CALL_NONE, CDriver, CReading, CTransaction
from osb._lib import lib
from osb.enums import Call, Effect, Look, Mode, Outcome, Stage, There
from osb.errors import check
from osb.holding import NO_ATTRIBUTES, Holding, digest_to, holding_from, holding_to
from osb.ids import Id
from osb.messages import Answer, Request

NO_NUMBER = bytes(16)
"""The number of a row that no driver has begun work on."""


@dataclass(frozen=True)
class Driver:
    """The way of one request through a broker, or of one take-up, which goes on with what a dead worker has left.

    It says the one action that the program carries out next (`stage`), and the program reports what came of it: by
    `locked`, by `looked`, `synced` or `called`, or by one of the drivers of a `Transaction`. So the program decides
    nothing. Each call gives the next driver, and changes none: step no driver twice. A driver that no call gives is
    refused with BAD_DRIVER.
    """

    number: bytes
    """The driver's own, 16 bytes: no other driver ever has it."""
    stage: Stage
    is_request: bool = True
    """Whether it answers a request. If not, it is of a take-up."""
    is_locked: bool = False
    """At BEGIN: whether it has the lock."""
    task: Request | None = None
    """At WORK: the request whose work is pending, or None if the work is the operation that runs."""
    call: Call | None = None
    """At WORK: the call of the backend to make next. If it is None, nobody knows how the work ended: step the driver no
    more.
    """
    creates: bool = False
    """At WORK: whether the work is a creation. If not, it is a deletion."""
    look: Look | None = None
    """At WORK, if the call is a look or a sync: the look that is made, or that follows."""
    rejection: int = 0
    """At WORK: the status with which the backend has rejected the creation, or 0."""
    outcome: Outcome | None = None
    """At END: how the work went."""
    answer: Answer | None = None
    """At ANSWER the answer to send. At END one of an earlier try, if nobody knows whether that was committed."""
    ok: bool = False
    """At FINISH: whether the operation succeeded."""

    @classmethod
    def new(cls, number: bytes, *, is_request: bool, has_lock: bool) -> Driver:
        """A driver at its beginning: of a request, or of a take-up. The program has taken the lock of its key, if that
        was free: `has_lock` is whether it was. A lock of which nobody knows isn't had. Draw 16 random bytes for the
        number. Raises BAD_DRIVER if they are zeroes.
        """
        driver = CDriver()
        check(lib.osb_driver_new(bytes(number_of(number)), is_request, has_lock, driver))
        return driver_from(driver)

    def locked(self, has_lock: bool) -> Driver:
        """Reports at AWAIT_LOCK whether the driver has the lock of its key after it has waited. A lock of which nobody
        knows isn't had. Raises WRONG_STAGE.
        """
        driver = driver_to(self)
        check(lib.osb_driver_locked(driver, has_lock))
        return driver_from(driver)

    def looked(self, there: There) -> Driver:
        """Reports what the look of LOOK has found. A look that shows how the work has ended moves the driver on, to END
        or FINISH. If a look has failed, nobody knows how the work ended: step the driver no more. Raises WRONG_STAGE.
        """
        driver = driver_to(self)
        check(lib.osb_driver_looked(driver, There(there).value))
        return driver_from(driver)

    def synced(self) -> Driver:
        """Reports that what exists is on disk (SYNC). If that failed, step the driver no more. Raises WRONG_STAGE."""
        driver = driver_to(self)
        check(lib.osb_driver_synced(driver))
        return driver_from(driver)

    def called(self, ok: bool, rejection: int = 0) -> Driver:
        """Reports that CREATE or DELETE has returned, and whether without an error. `rejection` is 400 or 422 if the
        backend has rejected the creation with that status, and else 0. Raises NOT_REFUSED, WRONG_STAGE.
        """
        driver = driver_to(self)
        check(lib.osb_driver_called(driver, ok, rejection))
        return driver_from(driver)

    def read(self, row: Reading) -> Transaction:
        """The transaction of an instance's driver, at BEGIN, END, FINISH and UNSURE.

        If the transaction that comes back `writes`, write its holding and its number, and commit. Work that only starts
        an operation needs no call of the backend: the driver that is committed is at END then. Raises BAD_HOLDING,
        WRONG_STAGE, and MISFIT if the row doesn't fit its plan, or its pending work is of another id. Such a row is
        left alone.
        """
        transaction = CTransaction()
        check(lib.osb_driver_read(driver_to(self), reading_to(row), transaction))
        return _transaction_from(transaction)

    def read_binding(self, row: Reading, instance: Holding) -> Transaction:
        """The transaction of a binding's driver, as `read` is that of an instance's. `instance` is the holding of the
        binding's instance, read and locked in this transaction: what may begin is what `Holding.begin_binding` lets
        begin. If the instance has a tombstone, and nothing is kept of the binding, nothing is written. The modes are
        those of binding.
        """
        transaction = CTransaction()
        check(lib.osb_binding_driver_read(driver_to(self), reading_to(row), holding_to(instance), transaction))
        return _transaction_from(transaction)


@dataclass(frozen=True)
class Reading:
    """What a transaction of a driver is given."""

    holding: Holding
    """That of the row, read and locked in this transaction."""
    id: Id
    """That of the row: the instance's, or the binding's."""
    row_mode: Mode | None
    """The mode of the row's plan, or, if there is no row, of the pending work's."""
    number: bytes = NO_NUMBER
    """That of the row, read and locked in this transaction."""
    request: Request | None = None
    """With `mode`, `first_poll`, `attributes` and `may_begin` what `Holding.begin_if` is given. These five count only
    at the first transaction of a request. The request is None for a take-up. A binding has its instance in the place of
    `may_begin`.
    """
    mode: Mode | None = None
    first_poll: bool = False
    attributes: bytes = NO_ATTRIBUTES
    may_begin: bool = True
    may_give_up: bool = False
    """Whether the row has waited too long for its first Poll."""


@dataclass(frozen=True)
class Transaction:
    """What a transaction of a driver comes to, once the row is read."""

    holding: Holding
    number: bytes
    """What the row has to have, with `holding`."""
    writes: bool
    """Whether the row has to be written: its holding or its number changed."""
    committed: Driver
    """The driver once the commit has returned."""
    unsure: Driver
    """The driver if nobody knows whether the transaction was committed."""
    effect: Effect
    """The event that the transaction is, once it is committed."""
    outcome: Outcome | None
    """Of the effect END: how the work went."""
    ok: bool
    """Of the effect FINISH: whether the operation succeeded."""


def number_of(number: bytes) -> ctypes.Array[ctypes.c_char]:
    return ctypes.create_string_buffer(number_to(number), 16)


def reading_to(row: Reading) -> CReading:
    made = CReading(
        holding=holding_to(row.holding),
        id=id_to(row.id),
        number=(ctypes.c_uint8 * 16)(*bytes(number_of(row.number))),
        attributes=digest_to(row.attributes),
        row_mode=mode_to(row.row_mode),
        mode=mode_to(row.mode),
        first_poll=bool(row.first_poll),
        may_begin=bool(row.may_begin),
        may_give_up=bool(row.may_give_up),
    )
    if row.request is not None:
        made.request = request_to(row.request)
    return made


def driver_to(driver: Driver) -> CDriver:
    stage = Stage(driver.stage)
    made = CDriver(
        number=(ctypes.c_uint8 * 16)(*bytes(number_of(driver.number))),
        rejection=driver.rejection,
        stage=stage.value,
        call=CALL_NONE if driver.call is None else Call(driver.call).value,
        is_request=bool(driver.is_request),
        is_locked=bool(driver.is_locked),
        is_pending=driver.task is not None,
        creates=bool(driver.creates),
        has_answer=stage is Stage.END and driver.answer is not None,
        ok=bool(driver.ok),
    )
    if driver.task is not None:
        made.task = request_to(driver.task)
    if driver.look is not None:
        made.look = Look(driver.look).value
    if driver.answer is not None:
        made.answer = answer_to(driver.answer)
    if driver.outcome is not None:
        made.outcome = Outcome(driver.outcome).value
    return made


def driver_from(driver: CDriver) -> Driver:
    stage = Stage(driver.stage)
    call = None if driver.call == CALL_NONE else Call(driver.call)
    has_answer = stage is Stage.ANSWER or driver.has_answer
    return Driver(
        number=bytes(driver.number),
        stage=stage,
        is_request=bool(driver.is_request),
        is_locked=bool(driver.is_locked),
        task=request_from(driver.task) if driver.is_pending else None,
        call=call,
        creates=bool(driver.creates),
        look=Look(driver.look) if call in (Call.LOOK, Call.SYNC) else None,
        rejection=driver.rejection,
        outcome=Outcome(driver.outcome) if stage is Stage.END else None,
        answer=answer_from(driver.answer) if has_answer else None,
        ok=bool(driver.ok),
    )


def _transaction_from(transaction: CTransaction) -> Transaction:
    effect = Effect(transaction.effect)
    return Transaction(
        holding_from(transaction.holding),
        bytes(transaction.number),
        bool(transaction.writes),
        driver_from(transaction.committed),
        driver_from(transaction.unsure),
        effect,
        Outcome(transaction.outcome) if effect is Effect.END else None,
        bool(transaction.ok),
    )
