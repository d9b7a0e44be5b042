"""What a platform records of one instance, as a value, for a row of a database (docs/instance.md)."""
from __future__ import annotations

from dataclasses import dataclass

from osb._crossing import answer_to, id_from, id_to, kind_from, kind_to, platform_row_to, request_from
from osb._header import CRecord, CRequest
from osb._lib import lib
from osb._texts import utf8
from osb.enums import Kind, State
from osb.errors import check, text_of
from osb.ids import Id
from osb.messages import Answer, PlatformRow, Request


@dataclass(frozen=True)
class Record:
    """What a platform records of an instance. Each call gives the next record, and changes none.

    A record that no call gives is refused with BAD_RECORD.
    """

    service: Id
    plan: Id
    attempt: int
    """The number of the latest request, and 0 before the first."""
    state: State
    out: Kind | None
    """The kind of the request in flight, or None."""

    def __post_init__(self) -> None:
        in_range(self.attempt)

    @classmethod
    def create(cls, id: Id, service: Id, plan: Id, accepts_incomplete: bool) -> tuple[Record, Request]:
        """A new instance, wanted, and its Provision, which is then in flight with the number 1.

        The record is written to the database under the id before the request is sent, and never deleted; the database
        has to refuse an id that is there.
        """
        record, request = CRecord(), CRequest()
        lib.osb_record_create(id_to(id), id_to(service), id_to(plan), accepts_incomplete, record, request)
        return record_from(record), request_from(request)

    @classmethod
    def from_platform_row(cls, row: PlatformRow) -> Record:
        """The first record of an instance that a saved record names, as after a restart. Call it once for each
        instance, when a platform moves from a saved record to a database. Raises BAD_ROW.
        """
        record = CRecord()
        check(lib.osb_record_from_row(platform_row_to(row), record))
        return record_from(record)

    def send(self, id: Id) -> tuple[Record, Request]:
        """The request that is due, which is then in flight with the next number. `id` is the key of the record's row.
        Raises BUSY, NOTHING_DUE, ATTEMPTS_USED_UP.
        """
        record, request = record_to(self), CRequest()
        check(lib.osb_record_send(record, id_to(id), request))
        return record_from(record), request_from(request)

    def answer(self, attempt: int, answer: Answer) -> Record:
        """Takes the answer to the request of this number. Raises NOT_IN_FLIGHT."""
        record = record_to(self)
        check(lib.osb_record_answer(record, in_range(attempt), answer_to(answer)))
        return record_from(record)

    def timeout(self, attempt: int) -> Record:
        """Gives up the request of this number: wanted becomes cleaning, every other state stays. So is done with what
        was in flight when a platform crashed. Raises NOT_IN_FLIGHT.
        """
        record = record_to(self)
        check(lib.osb_record_timeout(record, in_range(attempt)))
        return record_from(record)

    def expire(self) -> Record:
        """Gives up polling, as the maximum polling duration has passed. Raises BUSY, NOT_POLLING."""
        record = record_to(self)
        check(lib.osb_record_expire(record))
        return record_from(record)

    def retry(self) -> Record:
        """Sends a deletion again, for one whose maximum polling duration has passed. Raises BUSY, NOT_POLLING."""
        record = record_to(self)
        check(lib.osb_record_retry(record))
        return record_from(record)

    def remove(self) -> Record:
        """Has the instance deleted, as an operator asks. Raises BUSY, NOT_REMOVABLE."""
        record = record_to(self)
        check(lib.osb_record_remove(record))
        return record_from(record)

    def remove_if(self, all_gone: bool) -> Record:
        """Has an instance deleted that may have bindings, as `remove` does. `all_gone` is whether each binding of the
        instance that is recorded `is_gone`. Read it in the transaction that writes the record, with the record locked.
        This call waits for no binding and removes none: do that first. Raises BUSY, NOT_REMOVABLE, BOUND.
        """
        record = record_to(self)
        check(lib.osb_record_remove_if(record, all_gone))
        return record_from(record)

    @property
    def is_ready(self) -> bool:
        """Whether `ready` is recorded. A binding of an instance is created only then."""
        return bool(lib.osb_record_is_ready(record_to(self)))

    @property
    def is_gone(self) -> bool:
        """Whether `gone` is recorded. An instance is removed only once each of its bindings is gone."""
        return bool(lib.osb_record_is_gone(record_to(self)))

    def create_binding(self, binding: Id, accepts_incomplete: bool) -> tuple[Record, Request]:
        """A new binding of the instance that this is the record of: wanted, with the instance's service and plan, and
        its Bind, which is then in flight with the number 1. The id of the request is the binding's.

        Read this record, locked, in the transaction that writes the binding's. Accept an asynchronous operation only if
        the broker serves the Fetch of a binding. Write the record to the database before the request is sent, under the
        ids of the instance and of the binding, a pair that is used once and never again. Raises NOT_READY.
        """
        record, request = CRecord(), CRequest()
        check(lib.osb_binding_create(record_to(self), id_to(binding), accepts_incomplete, record, request))
        return record_from(record), request_from(request)

    def answer_binding(self, attempt: int, answer: Answer, *, retrievable: bool) -> Record:
        """Takes the answer to the request of this number, as `answer` does. But if the binding can't be fetched
        (`retrievable` is false), a 202 to a Bind is cleaned up: its credentials could never be had.

        If a Poll says `succeeded` in `polling`, send a Fetch first. Call this once the Fetch was answered 200 with an
        object, and otherwise `timeout` for the Poll. Raises NOT_IN_FLIGHT.
        """
        record = record_to(self)
        check(lib.osb_binding_answer(record, in_range(attempt), answer_to(answer), retrievable))
        return record_from(record)

    def to_text(self) -> str:
        """The text of the record, for a column of a database."""
        return text_of(lib.osb_record_to_text, record_to(self)).decode()

    @classmethod
    def from_text(cls, text: str) -> Record:
        """Reads the text of a record. Raises NOT_UTF8, NOT_JSON, NOT_AN_OBJECT, BAD_VERSION, BAD_OUTER, BAD_MEMBER,
        IMPOSSIBLE.
        """
        record, given = CRecord(), utf8(text)
        check(lib.osb_record_from_text(given, len(given), record))
        return record_from(record)

    def to_binding_text(self) -> str:
        """The text of a binding's record, for a column of a database: that of `to_text`, with a version of its own."""
        return text_of(lib.osb_binding_record_to_text, record_to(self)).decode()

    @classmethod
    def from_binding_text(cls, text: str) -> Record:
        """Reads the text of a binding's record. Raises what `from_text` raises."""
        record, given = CRecord(), utf8(text)
        check(lib.osb_binding_record_from_text(given, len(given), record))
        return record_from(record)


def in_range(attempt: int) -> int:
    if attempt not in range(2**64):
        raise ValueError("an attempt is a number from 0 to 2^64 - 1")
    return attempt


def record_to(record: Record) -> CRecord:
    return CRecord(
        id_to(record.service), id_to(record.plan), record.attempt, State(record.state).value, kind_to(record.out)
    )


def record_from(record: CRecord) -> Record:
    return Record(
        id_from(record.service), id_from(record.plan), record.attempt, State(record.state), kind_from(record.out)
    )
