"""What a platform does next: the way of one request from its record to its answer (docs/agreement.md)."""
from __future__ import annotations

import ctypes
from dataclasses import dataclass

from osb._crossing import answer_from, answer_to, id_to, number_to, request_from, request_to
from osb._header import CLEAN_UP_NONE, CAnswer, CPlatformDriver, CPlatformReading, CPlatformTransaction, CRecord
from osb._lib import lib
from osb.driver import NO_NUMBER
from osb.enums import CleanUp, PlatformStage
from osb.errors import check
from osb.ids import Id
from osb.messages import Answer, Request
from osb.record import Record, in_range, record_from, record_to

_Number = ctypes.c_uint8 * 16


@dataclass(frozen=True)
class PlatformDriver:
    """The way of one request of a platform, of an instance or of a binding.

    It says the one action that the program carries out next (`stage`), and the program reports what came of it, by
    `answered`, by `fetched`, or by one of the drivers of a `PlatformTransaction`. Each call gives the next driver, and
    changes none: step no driver twice. A driver that no call gives is refused with BAD_DRIVER.
    """

    number: bytes
    """The driver's own, 16 bytes: no other driver ever has it."""
    stage: PlatformStage = PlatformStage.CLAIM
    is_binding: bool = False
    """Whether it is of a binding. If not, it is of an instance."""
    attempt: int = 0
    """At SEND, FETCH, TAKE and UNSURE: the number of the request."""
    request: Request | None = None
    """At SEND: the request to send. That of a binding has the binding's id."""
    fetches: bool = False
    """At SEND: whether an answer that the binding is ready is taken only together with that to a Fetch."""
    answer: Answer | None = None
    """At FETCH and TAKE: the answer. At TAKE it is None if the request is given up."""
    has_credentials: bool = False
    """At TAKE, of a binding: whether its credentials came, and are sealed."""

    def __post_init__(self) -> None:
        in_range(self.attempt)

    @classmethod
    def new(cls, number: bytes, *, is_binding: bool) -> PlatformDriver:
        """A driver at its beginning: of a binding, or of an instance. Draw 16 random bytes for its number. Raises
        BAD_DRIVER if they are zeroes.
        """
        driver = CPlatformDriver()
        check(lib.osb_platform_driver_new(number_to(number), is_binding, driver))
        return _from(driver)

    def answered(self, answer: Answer | None, *, has_credentials: bool = False) -> PlatformDriver:
        """Reports the answer to the request of SEND, or None if none came in time, or none that is surely the broker's.
        `has_credentials` is whether it had an object of the binding, and the program has sealed it. Raises WRONG_STAGE.
        """
        driver, given = _to(self), CAnswer() if answer is None else answer_to(answer)
        check(lib.osb_platform_driver_answered(driver, answer is not None, given, has_credentials))
        return _from(driver)

    def fetched(self, has_credentials: bool) -> PlatformDriver:
        """Reports whether the Fetch of FETCH was answered with an object of the binding, and the program has sealed it.
        Raises WRONG_STAGE.
        """
        driver = _to(self)
        check(lib.osb_platform_driver_fetched(driver, has_credentials))
        return _from(driver)

    def read(self, row: PlatformReading) -> PlatformTransaction:
        """The transaction of a driver at CLAIM, TAKE and UNSURE. If the transaction that comes back `writes`, write its
        record and its number, and commit. Raises BAD_RECORD, WRONG_STAGE.
        """
        transaction = CPlatformTransaction()
        check(lib.osb_platform_driver_read(_to(self), _reading_to(row), transaction))
        return _transaction_from(transaction)


@dataclass(frozen=True)
class PlatformReading:
    """What a transaction of a driver is given. At TAKE and UNSURE only `record`, `number` and `retrievable` count."""

    id: Id
    """The key of the row: the id of the instance, or that of the binding."""
    record: Record | None = None
    """The row's, read and locked in this transaction, or None if nothing is recorded."""
    number: bytes = NO_NUMBER
    """The row's: the number of the driver that last claimed it, or `NO_NUMBER`."""
    instance: Record | None = None
    """The record of a binding's instance, read and locked in this transaction. A binding is created only while it is
    ready, with its service and plan.
    """
    all_gone: bool = False
    """Whether each recorded binding of an instance is gone. An instance is removed only then."""
    service: Id | None = None
    """The service with which an instance is created."""
    plan: Id | None = None
    """The plan with which an instance is created."""
    accepts_incomplete: bool = True
    """Whether an asynchronous creation is accepted."""
    retrievable: bool = False
    """Whether the broker serves the Fetch of a binding."""
    create: bool = False
    """The wish to create what isn't recorded."""
    clean_up: CleanUp | None = None
    """The wish to clean up."""
    send: bool = False
    """The wish to send the request that is due."""


@dataclass(frozen=True)
class PlatformTransaction:
    """What a transaction of a driver comes to, once the row is read."""

    record: Record | None
    number: bytes
    """What the row has to have, with `record`."""
    writes: bool
    """Whether the row has to be written: its record or its number changed."""
    committed: PlatformDriver
    """The driver once the commit has returned."""
    unsure: PlatformDriver
    """The driver if nobody knows whether the transaction was committed."""
    failed: PlatformDriver
    """The driver if the transaction wasn't committed."""
    times_out: bool
    """Whether a request in flight was given up."""
    cleans_up: CleanUp | None
    """How the record was cleaned up."""
    sends: bool
    """Whether a request is in flight by this transaction."""
    takes: bool
    """Whether an answer was taken."""


def _to(driver: PlatformDriver) -> CPlatformDriver:
    stage = PlatformStage(driver.stage)
    made = CPlatformDriver(
        number=_Number(*number_to(driver.number)),
        attempt=driver.attempt,
        stage=stage.value,
        is_binding=bool(driver.is_binding),
        has_answer=stage is PlatformStage.TAKE and driver.answer is not None,
        has_credentials=bool(driver.has_credentials),
        fetches=bool(driver.fetches),
    )
    if driver.request is not None:
        made.request = request_to(driver.request)
    if driver.answer is not None:
        made.answer = answer_to(driver.answer)
    return made


def _from(driver: CPlatformDriver) -> PlatformDriver:
    stage = PlatformStage(driver.stage)
    has_answer = stage is PlatformStage.FETCH or driver.has_answer
    return PlatformDriver(
        bytes(driver.number),
        stage,
        bool(driver.is_binding),
        driver.attempt,
        request_from(driver.request) if stage is PlatformStage.SEND else None,
        bool(driver.fetches),
        answer_from(driver.answer) if has_answer else None,
        bool(driver.has_credentials),
    )


def _reading_to(row: PlatformReading) -> CPlatformReading:
    none = Id(0, 0)
    return CPlatformReading(
        CRecord() if row.record is None else record_to(row.record),
        CRecord() if row.instance is None else record_to(row.instance),
        id_to(row.id),
        id_to(row.service or none),
        id_to(row.plan or none),
        _Number(*number_to(row.number)),
        CLEAN_UP_NONE if row.clean_up is None else CleanUp(row.clean_up).value,
        row.record is not None,
        row.instance is not None,
        bool(row.all_gone),
        bool(row.create),
        bool(row.send),
        bool(row.accepts_incomplete),
        bool(row.retrievable),
    )


def _transaction_from(of: CPlatformTransaction) -> PlatformTransaction:
    return PlatformTransaction(
        record_from(of.record) if of.has_record else None,
        bytes(of.number),
        bool(of.writes),
        _from(of.committed),
        _from(of.unsure),
        _from(of.failed),
        bool(of.times_out),
        None if of.cleans_up == CLEAN_UP_NONE else CleanUp(of.cleans_up),
        bool(of.sends),
        bool(of.takes),
    )
