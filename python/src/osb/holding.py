"""What a broker holds of one instance, as a value, for a row of a database (docs/instance.md)."""
from __future__ import annotations

import ctypes
from dataclasses import dataclass
from typing import ClassVar

from osb._crossing import answer_from, broker_row_from, broker_row_to, id_to, kind_to, mode_to, request_from, request_to
from osb._header import WORK_NONE, CAnswer, CBegun, CHolding
from osb._lib import lib
from osb._texts import utf8
from osb.enums import Kind, Mode, Outcome, Phase, Work
from osb.errors import check, text_of
from osb.ids import Id
from osb.messages import Answer, BrokerRow, Request

NO_ATTRIBUTES = bytes(32)
"""The digest of no attributes."""


@dataclass(frozen=True)
class Holding:
    """What a broker holds of an instance. Each call gives the next holding, and changes none.

    A holding doesn't know how its plan works: each call takes the mode of the request's plan, None where the plan isn't
    on sale. A holding that no call gives is refused with BAD_HOLDING.
    """

    row: BrokerRow | None = None
    work: Request | None = None
    """The request whose work is pending, or None."""
    has_tombstone: bool = False
    """Whether the instance has ended: none with this id is ever made again."""
    attributes: bytes = NO_ATTRIBUTES
    """The digest of the attributes of row and work, 32 bytes."""

    NONE: ClassVar[Holding]
    """What is held of an id that no request has come for."""

    @property
    def is_unfinished(self) -> bool:
        """Whether somebody has to go on with it: work is pending, or an operation runs."""
        running = self.row is not None and self.row.phase in (Phase.MAKING, Phase.DELETING)
        return running or self.work is not None

    def fits(self, mode: Mode | None) -> bool:
        """Whether the holding can come about at a plan of the mode. Asked of each that comes from a database, with the
        mode of the row's plan, or of the pending request's if there is no row.
        """
        return bool(lib.osb_holding_fits(holding_to(self), mode_to(mode)))

    def begin(
        self, mode: Mode | None, request: Request, *, first_poll: bool = False, attributes: bytes = NO_ATTRIBUTES
    ) -> tuple[Holding, Answer | Work]:
        """Begins with a request to this instance: gives the answer to send, or the work that is due and pending.

        With `first_poll`, an asynchronous plan's instance is made only once it was polled: its Provision leaves a row
        in `waiting`, and its first Poll one in `making`, whose operation runs from then on. `attributes` is the digest
        of what a Provision asks for, 32 bytes, as `osb.wire.attributes_digest` returns it: one of the same service and
        plan with others is answered with 409.

        The holding is written to the database if it differs, before the work begins or the answer is sent.
        """
        holding, begun = holding_to(self), CBegun()
        digest = bytes(digest_to(attributes))
        check(lib.osb_holding_begin(holding, mode_to(mode), first_poll, request_to(request), digest, begun))
        return holding_from(holding), due(begun)

    def begin_if(
        self,
        mode: Mode | None,
        request: Request,
        *,
        may_begin: bool,
        first_poll: bool = False,
        attributes: bytes = NO_ATTRIBUTES,
    ) -> tuple[Holding, Answer | Work]:
        """Begins with a request as `begin` does, but if `may_begin` is false, nothing begins: a request whose work
        would be due is answered as if work were pending, and nothing changes.

        For an instance that may have bindings, `may_begin` is whether `is_held` is false of each of them. Read it in
        the transaction that writes the holding. A Deprovision is then answered with 422.
        """
        holding, begun = holding_to(self), CBegun()
        digest, asked = bytes(digest_to(attributes)), request_to(request)
        check(lib.osb_holding_begin_if(holding, mode_to(mode), first_poll, asked, digest, may_begin, begun))
        return holding_from(holding), due(begun)

    def begin_binding(
        self,
        instance: Holding,
        mode: Mode | None,
        request: Request,
        *,
        first_poll: bool = False,
        attributes: bytes = NO_ATTRIBUTES,
    ) -> tuple[Holding, Answer | Work]:
        """Begins with a request to this binding, as `begin` does for an instance, with two differences. `instance` is
        the holding of the binding's instance. Read it, locked, in the transaction that writes this one. The mode is
        that of binding at the plan, and the id of the request is the binding's.

        If the instance isn't there (`is_there`), no Bind begins: one whose work would be due is answered with 503, and
        nothing changes.

        If the instance has a tombstone, and nothing is kept of the binding, nothing changes: every Bind is answered
        with 503, and an Unbind with 410. So the tombstones of bindings may be deleted once their instance has one.
        """
        holding, begun = holding_to(self), CBegun()
        digest, asked = bytes(digest_to(attributes)), request_to(request)
        check(lib.osb_binding_begin(holding, holding_to(instance), mode_to(mode), first_poll, asked, digest, begun))
        return holding_from(holding), due(begun)

    def fetch(self) -> Answer:
        """The answer to a Fetch of this binding: 200 if the row is `ready` and no work is pending, and else 404. Send a
        200 with the credentials that are stored beside the holding.
        """
        answer = CAnswer()
        check(lib.osb_binding_fetch(holding_to(self), answer))
        return answer_from(answer)

    @property
    def is_held(self) -> bool:
        """Whether there is a row, or work is pending. True also of a holding that no call gives, so that nothing begins
        then. While a binding is held, the deletion of its instance doesn't begin.
        """
        return bool(lib.osb_holding_is_held(holding_to(self)))

    def is_there(self, service: Id, plan: Id) -> bool:
        """Whether the row is `ready`, with this service and plan, and no work is pending. `begin_binding` asks this of
        the instance's holding.
        """
        return bool(lib.osb_holding_is_there(holding_to(self), id_to(service), id_to(plan)))

    def end(self, mode: Mode | None, outcome: Outcome) -> tuple[Holding, Answer]:
        """Ends the pending work with this outcome, and gives the answer to its request. The mode has to fit. A refusal
        leaves the tombstone. The holding is written to the database before the answer is sent. Raises NOTHING_BEGUN,
        NOT_A_PROVISION.
        """
        holding, answer = holding_to(self), CAnswer()
        check(lib.osb_holding_end(holding, mode_to(mode), Outcome(outcome).value, answer))
        return holding_from(holding), answer_from(answer)

    def finish(self, ok: bool) -> Holding:
        """Ends the operation that runs on the instance, well (ok) or badly. Raises NOTHING_RUNNING."""
        holding = holding_to(self)
        check(lib.osb_holding_finish(holding, ok))
        return holding_from(holding)

    def give_up_waiting(self) -> Holding:
        """Gives up an instance that has waited too long for its first Poll: it has failed then, and nothing of it was
        made. Raises NOT_WAITING.
        """
        holding = holding_to(self)
        check(lib.osb_holding_give_up_waiting(holding))
        return holding_from(holding)

    def to_text(self) -> str:
        """The text of the holding, for a column of a database."""
        return text_of(lib.osb_holding_to_text, holding_to(self)).decode()

    @classmethod
    def from_text(cls, text: str) -> Holding:
        """Reads the text of a holding. Raises NOT_UTF8, NOT_JSON, NOT_AN_OBJECT, BAD_VERSION, BAD_OUTER, BAD_MEMBER,
        IMPOSSIBLE.
        """
        holding, given = CHolding(), utf8(text)
        check(lib.osb_holding_from_text(given, len(given), holding))
        return holding_from(holding)

    def to_binding_text(self) -> str:
        """The text of a binding's holding, for a column of a database: that of `to_text`, with a version of its own."""
        return text_of(lib.osb_binding_holding_to_text, holding_to(self)).decode()

    @classmethod
    def from_binding_text(cls, text: str) -> Holding:
        """Reads the text of a binding's holding. Raises what `from_text` raises."""
        holding, given = CHolding(), utf8(text)
        check(lib.osb_binding_holding_from_text(given, len(given), holding))
        return holding_from(holding)


Holding.NONE = Holding()


def work_of(kind: Kind, mode: Mode | None) -> Work | None:
    """The work that a request of the kind means at a plan of the mode: what a broker that starts again asks of pending
    work. None of a Poll, and where the plan isn't on sale.
    """
    work = lib.osb_work_of(kind_to(kind), mode_to(mode))
    return None if work == WORK_NONE else Work(work)


def due(begun: CBegun) -> Answer | Work:
    """The answer to send, or the work that is due."""
    return answer_from(begun.answer) if begun.work == WORK_NONE else Work(begun.work)


def digest_to(attributes: bytes) -> ctypes.Array[ctypes.c_uint8]:
    if len(attributes) != 32:
        raise ValueError("a digest of attributes has 32 bytes")
    return (ctypes.c_uint8 * 32)(*attributes)


def holding_to(holding: Holding) -> CHolding:
    made = CHolding(
        has_row=holding.row is not None,
        has_work=holding.work is not None,
        has_tombstone=bool(holding.has_tombstone),
        attributes=digest_to(holding.attributes),
    )
    if holding.row is not None:
        made.row = broker_row_to(holding.row)
    if holding.work is not None:
        made.work = request_to(holding.work)
    return made


def holding_from(holding: CHolding) -> Holding:
    return Holding(
        broker_row_from(holding.row) if holding.has_row else None,
        request_from(holding.work) if holding.has_work else None,
        bool(holding.has_tombstone),
        bytes(holding.attributes),
    )
