"""The holding of updates of libosb, through the package for Python, is that of the model, for each cell of a broker."""

from __future__ import annotations

from itertools import product
from typing import Any

import osb
import pytest
from binding.model import begins
from network import model as instances
from network.model import BUSY, Held
from network.model import Request as Asked
from osb import Answer, Body, Change, Found, Id, Mode, OsbError, Settings, Status, UpdateHolding, UpdateWork
from update import model
from update.cases import HOLDINGS, INSTANCES, MODES, REQUESTS, UPDATES
from update.model import ALLOWED, OUTCOMES, UNDER_WAY, Holding

pytestmark = pytest.mark.slow

PLAN, ONE = Id(0, ord("p")), Id(0, 1)
BODIES = {"in-progress": Body.IN_PROGRESS, "error": Body.OTHER_ERROR, "AsyncRequired": Body.ASYNC_REQUIRED}
BODIES |= {"ConcurrencyError": Body.CONCURRENCY_ERROR}
NAMED = {"rejected 400": "REJECTED_400", "rejected 422": "REJECTED_422", "conflict": "MAINTENANCE_CONFLICT"}


def service(number: int) -> Id:
    return Id(0, 0xA0 + number)


def digest(letter: str) -> bytes:
    return bytes([ord(letter)]) * 32


def settings(word: str) -> Settings:
    return Settings(Id(0, ord(word[0])), digest(word[1]), digest(word[2]))


def change(word: str) -> Change:
    parameters, version = (None if letter == "." else digest(letter) for letter in word[1:])
    return Change(None if word[0] == "." else Id(0, ord(word[0])), parameters, version)


def holding(of: Holding) -> UpdateHolding:
    return UpdateHolding(
        settings(of.settings), of.number, osb.UpdatePhase[of.phase.upper()], settings(of.to) if of.to else None
    )


def request(of: Asked) -> osb.Request:
    return osb.Request(osb.Kind[of.kind.upper()], of.accepts, ONE, service(0), PLAN)


def attributes(number: int) -> bytes:
    return bytes([number]) * 32


def instance(of: Held) -> osb.Holding:
    phase = of.row and osb.Phase[of.row.phase.upper().replace("-", "_")]
    row = osb.BrokerRow(service(0), PLAN, phase) if phase is not None else None
    return osb.Holding(row, of.work and request(of.work), of.tombstone, attributes(of.attributes))


def answer(of: instances.Answer) -> Answer | osb.MaintenanceConflict:
    if of.body == "MaintenanceInfoConflict":
        return osb.MaintenanceConflict()
    return Answer(of.status, BODIES.get(of.body) or Body[of.body.upper()])


def test_begin() -> None:
    for held, allowed, of, update in product(INSTANCES, ALLOWED, HOLDINGS, UPDATES):
        after, begun = model.begin(held, allowed, of, update)
        wanted = (
            UpdateWork(Mode[begun.mode.upper()], settings(begun.to)) if isinstance(begun, model.Work) else answer(begun)
        )
        sent = osb.Update(service(update.service), change(update.names), update.number, update.accepts)
        found = holding(of).begin(instance(held), osb.Allowed[NAMED.get(allowed, allowed.upper())], sent)
        assert found == (holding(after), wanted), (held, allowed, of, update)


def done(call: Any) -> Any:
    """What the call gives, or its status."""
    try:
        return call()
    except OsbError as error:
        return error.status


def test_end() -> None:
    for mode, outcome, of in product(MODES, OUTCOMES, HOLDINGS):
        ended = model.end(mode, of, outcome)
        wanted = (holding(ended[0]), answer(ended[1])) if ended else Status.NOTHING_BEGUN
        name = osb.UpdateOutcome[outcome.upper().replace(" ", "_")]
        assert done(lambda: holding(of).end(Mode[mode.upper()], name)) == wanted, (mode, outcome, of)


def test_finish() -> None:
    for ok, of in product((True, False), HOLDINGS):
        finished = model.finish(of, ok)
        wanted = holding(finished) if finished else Status.NOTHING_UPDATING
        assert done(lambda: holding(of).finish(ok)) == wanted, (ok, of)


def test_poll_and_fetch() -> None:
    for held, of in product(INSTANCES, HOLDINGS):
        polled, found = model.poll(held, of), model.fetch(held, of)
        wanted = answer(polled) if polled else Status.NOT_AVAILABLE
        assert done(lambda: holding(of).poll(instance(held))) == wanted, (held, of)
        reported = Found(settings(found.settings), found.number) if isinstance(found, model.Found) else answer(found)
        assert holding(of).fetch(instance(held)) == reported, (held, of)


WORKS = {("sync", False): osb.Work.MAKE, ("async", False): osb.Work.START_MAKING}
WORKS |= {("sync", True): osb.Work.DELETE, ("async", True): osb.Work.START_DELETING}


@pytest.mark.parametrize("mode", MODES)
def test_begin_instance(mode: str) -> None:
    for first, asked, bound, held, of in product((True, False), REQUESTS, (True, False), INSTANCES, HOLDINGS):
        after, given = instances.begin(mode, first, held, asked)
        if (bound or of.phase in UNDER_WAY) and begins(mode, held, asked):
            after, given = held, BUSY[asked.kind]
        wanted = answer(given) if given else WORKS[mode, asked.kind == "deprovision"]
        rules: dict[str, Any] = {"first_poll": first, "attributes": attributes(asked.attributes)}
        found = holding(of).begin_instance(instance(held), Mode[mode.upper()], request(asked), any_held=bound, **rules)
        assert found == (instance(after), wanted), (mode, first, asked, bound, held, of)
