"""The tables of updates, as the proved library has them (rules.py has those of instances and bindings)."""
from __future__ import annotations

from functools import lru_cache

from osb.driver import Reading
from osb.enums import Allowed, Mode, Stage, UpdateOutcome, UpdatePhase
from osb.errors import OsbError
from osb.ids import Id
from osb.update import WITH_GOAL, Change, Found, MaintenanceConflict, Settings, Update, UpdateHolding, UpdateWork
from osb.update_driver import UpdateDriver, UpdateReading
from osb_audit.rules import (
    ID,
    MODES,
    OTHER,
    OTHERS,
    PLAN,
    SERVICE,
    Asked,
    Held,
    NoText,
    Said,
    held_of,
    holding_of,
    request_of,
    said_of,
)

CONFLICT: Said = (422, "other-error")
"""How MaintenanceInfoConflict stands in a journal."""
_ALLOWED = {str(allowed): allowed for allowed in Allowed}
_OUTCOMES = {str(outcome): outcome for outcome in UpdateOutcome}
_NUMBER = bytes([1] * 16)
"""Of a driver that no row has."""


@lru_cache(maxsize=1 << 12)
def updates_in(text: str) -> UpdateHolding | None:
    """What a text says that is kept of updates, or None if it is empty."""
    if not text:
        return None
    try:
        return UpdateHolding.from_text(text)
    except (OsbError, ValueError) as error:
        raise NoText(f"it is no text of what is kept of updates: {text}") from error


def provisioned(plan: str, attributes: str, version: bytes) -> UpdateHolding:
    """What stands for what is kept of updates until the first Update is judged: the settings of the Provision."""
    try:
        return UpdateHolding(Settings(_id(plan), bytes.fromhex(attributes), version))
    except ValueError as error:
        raise NoText(f"it is no digest of attributes: {attributes}") from error


def change_of(plan: str, parameters: str, version: str) -> Change:
    """What an Update names. What is empty isn't named."""
    return Change(
        _id(plan) if plan else None,
        bytes.fromhex(parameters) if parameters else None,
        bytes.fromhex(version) if version else None,
    )


def _id(text: str) -> Id:
    try:
        return Id.of(text)
    except OsbError as error:
        raise NoText(f"it is no number of an id: {text}") from error


def begun(
    instance: Held, kept: UpdateHolding, allowed: str, change: Change, number: int, accepts: bool, is_same: bool
) -> tuple[UpdateHolding, Said | None, Mode]:
    """What is kept after an Update, and the answer, or None if its work is pending then, which is done in this mode.
    `allowed` is what the catalogue has for the Update, and `is_same` whether it names the service of the row.
    """
    update = Update(SERVICE if is_same else OTHER, change, number, accepts)
    after, found = kept.begin(holding_of(instance), _ALLOWED[allowed], update)
    if isinstance(found, UpdateWork):
        return after, None, found.mode
    return after, CONFLICT if isinstance(found, MaintenanceConflict) else said_of(found), Mode.SYNC


def ended(kept: UpdateHolding, mode: Mode, how: str) -> tuple[UpdateHolding, Said] | None:
    """What an end of the pending work leaves, with the answer. None if no work of an Update is pending."""
    try:
        left, answer = kept.end(mode, _OUTCOMES[how])
    except OsbError:
        return None
    return left, said_of(answer)


def finished(kept: UpdateHolding, how: str) -> UpdateHolding | None:
    """What the end of an operation leaves, `ok` or `fail`. None if no operation of an Update runs."""
    try:
        return kept.finish(how == "ok")
    except OsbError:
        return None


def _kept(phase: UpdatePhase) -> UpdateHolding:
    """One in this phase, whose settings are those that stand for all others."""
    return UpdateHolding(Settings(PLAN), 1, phase, Settings(OTHER) if phase in WITH_GOAL else None)


@lru_cache(maxsize=1 << 12)
def instance_begun(held: Held, asked: Asked, is_bound: bool, phase: UpdatePhase) -> tuple[Held, Said | None]:
    """What is held of an instance after a request of its own, and the answer, or None if its work is pending then. The
    latest update is in this phase.
    """
    reading = Reading(
        holding_of(held),
        ID,
        MODES[asked.row_mode],
        request=request_of(asked.kind, asked.accepts, asked.is_same),
        mode=MODES[asked.mode],
        first_poll=asked.first_poll,
        attributes=bytes(32) if asked.is_alike else OTHERS,
        may_begin=not is_bound,
    )
    version = bytes(32) if asked.is_current else OTHERS
    driver = UpdateDriver.new(_NUMBER, is_request=True, has_lock=True)
    try:
        made = driver.read(UpdateReading(reading, _kept(phase), version=version))
    except OsbError:
        return held, None
    answer = made.committed.driver.answer if made.committed.stage is Stage.ANSWER else None
    return held_of(made.holding), said_of(answer) if answer else None


@lru_cache(maxsize=1 << 10)
def fetched(held: Held, phase: UpdatePhase) -> Said:
    """The answer to a Fetch of an instance that its service and plan allow."""
    found = _kept(phase).fetch(holding_of(held))
    return (200, "empty") if isinstance(found, Found) else said_of(found)
