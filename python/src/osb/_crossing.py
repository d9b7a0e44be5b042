"""Values as the structs that cross to the library, and back."""
from __future__ import annotations

import sys

from osb._header import KIND_NONE, MODE_NONE, CAnswer, CBrokerRow, CEndpoints, CId, CPlan, CPlatformRow, CRequest
from osb.enums import Body, Kind, Mode, Phase, State
from osb.ids import Id
from osb.messages import Answer, BrokerRow, Endpoints, Plan, PlatformRow, Request


def id_to(id: Id) -> CId:
    return CId(id.high, id.low)


def id_from(id: CId) -> Id:
    return Id(id.high, id.low)


def number_to(number: bytes) -> bytes:
    """The number of a driver."""
    if len(number) != 16:
        raise ValueError("the number of a driver has 16 bytes")
    return bytes(number)


def kind_to(kind: Kind | None) -> int:
    return KIND_NONE if kind is None else Kind(kind).value


def kind_from(kind: int) -> Kind | None:
    return None if kind == KIND_NONE else Kind(kind)


def mode_to(mode: Mode | None) -> int:
    return MODE_NONE if mode is None else Mode(mode).value


def request_to(request: Request) -> CRequest:
    ids = map(id_to, (request.id, request.service, request.plan))
    return CRequest(Kind(request.kind).value, bool(request.accepts_incomplete), *ids)


def request_from(request: CRequest) -> Request:
    ids = map(id_from, (request.id, request.service, request.plan))
    return Request(Kind(request.kind), bool(request.accepts_incomplete), *ids)


def status_to(status: int) -> int:
    if status not in range(2**16):
        raise ValueError("the status of a response is a number from 0 to 65535")
    return status


def longest_to(longest_body: int) -> int:
    """ctypes would let another number wrap around, and -1 would be no limit at all."""
    if not 0 <= longest_body <= sys.maxsize:
        raise ValueError(f"longest_body is a number from 0 to {sys.maxsize}")
    return longest_body


def answer_to(answer: Answer) -> CAnswer:
    return CAnswer(answer.status, Body(answer.body).value)


def answer_from(answer: CAnswer) -> Answer:
    return Answer(answer.status, Body(answer.body))


def platform_row_to(row: PlatformRow) -> CPlatformRow:
    return CPlatformRow(id_to(row.service), id_to(row.plan), State(row.state).value, kind_to(row.out))


def plan_from(plan: CPlan) -> Plan:
    return Plan(id_from(plan.service), id_from(plan.plan), bool(plan.is_asynchronous))


def endpoints_to(serves: Endpoints) -> CEndpoints:
    return CEndpoints(**{name: bool(is_served) for name, is_served in vars(serves).items()})


def broker_row_to(row: BrokerRow) -> CBrokerRow:
    return CBrokerRow(id_to(row.service), id_to(row.plan), Phase(row.phase).value)


def broker_row_from(row: CBrokerRow) -> BrokerRow:
    return BrokerRow(id_from(row.service), id_from(row.plan), Phase(row.phase))
