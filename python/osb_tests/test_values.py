"""What api/cases.txt leaves of records and holdings: what Python's types add, and values of Python alone."""
from __future__ import annotations

import osb.holding
import osb.record
import osb.update
import pytest
from osb import (
    Answer,
    BrokerRow,
    Change,
    Endpoints,
    Found,
    Holding,
    Id,
    PlatformRow,
    Record,
    Settings,
    Update,
    UpdateHolding,
    UpdateWork,
    _crossing,
    update_wire,
)
from osb.enums import Allowed, Body, Kind, Mode, Phase, State, Status, UpdateOutcome, UpdatePhase
from osb_tests.support import ASYNC, ONE, SERVICE, SYNC, TWO, request, status_of

POLL = Kind.POLL
SET, OTHER = (Settings(plan, byte * 32, byte * 32) for plan, byte in ((SYNC, b"\1"), (ASYNC, b"\2")))


def record(state: State, out: Kind | None = None, attempt: int = 1) -> Record:
    return Record(SERVICE, SYNC, attempt, state, out)


def row(phase: Phase, plan: Id = ASYNC) -> BrokerRow:
    return BrokerRow(SERVICE, plan, phase)


def test_text_of_an_id() -> None:
    text = "12345678-9abc-def0-1234-56789abcdef0"
    assert Id.of(text.upper()) == Id(0x123456789ABCDEF0, 0x123456789ABCDEF0)
    assert str(Id.of(text.upper())) == text
    assert eval(repr(Id.of(text))) == Id.of(text)
    assert len({Id.of(text), Id.of(text.upper()), ONE}) == 2
    assert ONE < TWO


@pytest.mark.parametrize(("high", "low"), [(-1, 0), (0, 2**64)])
def test_no_id(high: int, low: int) -> None:
    with pytest.raises(ValueError):
        Id(high, low)


def test_new_ids() -> None:
    made = {Id.new() for _ in range(100)}
    assert len(made) == 100
    for text in map(str, made):
        assert (text[14], text[19] in "89ab") == ("4", True), text


@pytest.mark.parametrize(
    ("value", "name"), [(State.READY, "ready"), (Phase.DELETE_FAILED, "delete-failed"), (Status.NOT_UTF8, "not-utf8")]
)
def test_names_are_shown(value: State | Phase | Status, name: str) -> None:
    """By `print` and in f-strings, alike in every Python."""
    assert (str(value), f"{value}", f"{value:>20}") == (name, name, name.rjust(20))


def test_numbers_are_shown() -> None:
    """A number is what it was."""
    assert (int(State.READY), State(2), f"{State.READY.value:02}") == (2, State.READY, "02")
    assert Status.BUSY.meaning == "a request is in flight"


def test_each_member_of_a_struct_crosses() -> None:
    """None of these values is zero. A member of a struct that isn't carried to C is."""
    asked, held = request(POLL), row(Phase.READY)
    for made in (
        _crossing.request_to(asked),
        _crossing.answer_to(Answer(201, Body.EMPTY)),
        _crossing.platform_row_to(PlatformRow(SERVICE, SYNC, State.POLLING, POLL)),
        _crossing.broker_row_to(held),
        _crossing.endpoints_to(Endpoints(True, True, True, True)),
        osb.record.record_to(record(State.POLLING, POLL)),
        osb.holding.holding_to(Holding(held, asked, True, b"\1" * 32)),
        osb.update.update_to(Update(SERVICE, Change(SYNC, b"\1" * 32, b"\1" * 32), 1)),
        osb.update.update_holding_to(UpdateHolding(SET, 1, UpdatePhase.UPDATING, OTHER)),
    ):
        for name, _ in made._fields_:
            place = getattr(type(made), name)
            assert any(bytes(made)[place.offset : place.offset + place.size]), (made, name)


def test_attempt_of_a_record() -> None:
    """A number that C's uint64_t can't have isn't taken for another one."""
    busy, succeeded = record(State.POLLING, POLL, 2), Answer(200, Body.SUCCEEDED)
    with pytest.raises(ValueError):
        busy.timeout(2**64 + 2)
    with pytest.raises(ValueError):
        busy.answer(2**64 + 2, succeeded)
    with pytest.raises(ValueError):
        busy.answer_binding(2**64 + 2, succeeded, retrievable=True)


@pytest.mark.parametrize("number", [-1, 2**64])
def test_number_of_an_update(number: int) -> None:
    """A number that C's uint64_t can't have isn't taken for another one."""
    with pytest.raises(ValueError):
        UpdateHolding(SET, number).to_text()
    with pytest.raises(ValueError):
        UpdateHolding(SET).begin(Holding.NONE, Allowed.SYNC, Update(SERVICE, Change(), number))
    with pytest.raises(ValueError):
        update_wire.write_fetched("service", "plan", number, parameters=None)


@pytest.mark.parametrize(
    "holding", [UpdateHolding(SET, 1, UpdatePhase.UPDATING), UpdateHolding(SET, 1, UpdatePhase.FAILED, OTHER)]
)
def test_settings_to_which_nothing_leads(holding: UpdateHolding) -> None:
    """A holding of updates without the settings to which it has to lead, and one with settings to which it doesn't."""
    with pytest.raises(ValueError):
        holding.to_text()


def test_an_update() -> None:
    """A whole update: it is begun, kept as text over a crash, started, polled, fetched and ended."""
    instance = Holding(row(Phase.READY))
    pending, begun = UpdateHolding.new(SET).begin(instance, Allowed.ASYNC, Update(SERVICE, Change(ASYNC), 1))
    to = SET.asked_for(Change(ASYNC))
    assert begun == UpdateWork(Mode.ASYNC, to)
    read = UpdateHolding.from_text(pending.to_text())
    assert read == pending
    updating, answer = read.end(Mode.ASYNC, UpdateOutcome.DONE)
    assert (answer, updating.is_under_way) == (Answer(202, Body.EMPTY), True)
    assert updating.poll(instance) == Answer(200, Body.IN_PROGRESS)
    assert updating.finish(True).fetch(instance) == Found(to, 1)


@pytest.mark.parametrize("of", [Record, Holding, UpdateHolding])
def test_no_text(of: type[Record] | type[Holding] | type[UpdateHolding]) -> None:
    assert status_of(lambda: of.from_text("\ud800")) == Status.NOT_UTF8


@pytest.mark.parametrize(
    ("holding", "is_unfinished"),
    [
        (Holding.NONE, False),
        (Holding(row(Phase.READY)), False),
        (Holding(row(Phase.FAILED)), False),
        (Holding(row(Phase.MAKING)), True),
        (Holding(row(Phase.DELETING)), True),
        (Holding(work=request(Kind.PROVISION)), True),
        (Holding(row(Phase.READY, SYNC), request(Kind.DEPROVISION)), True),
    ],
)
def test_unfinished_holdings(holding: Holding, is_unfinished: bool) -> None:
    assert holding.is_unfinished == is_unfinished
