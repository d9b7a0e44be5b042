"""The updates of one instance at its broker, as values, for a row of a database.

A broker keeps an `UpdateHolding` of each instance beside its `Holding`, from the first Update on. An update is under
way if the work of an Update is pending or its operation runs. The instance is available if its row is `ready` and no
work of it is pending. Two rules tie both together: no Update begins unless the instance is available
(`UpdateHolding.begin`), and no deletion of the instance begins while an update is under way
(`UpdateHolding.begin_instance`). Read both, locked, in the transaction that writes one of them.
"""
from __future__ import annotations

from dataclasses import dataclass
from typing import Union

from osb._crossing import answer_from, id_from, id_to, mode_to, request_to
from osb._header import CAnswer, CBegun, CChange, CSettings, CUpdate, CUpdateBegun, CUpdateFetched, CUpdateHolding
from osb._lib import lib
from osb._texts import utf8
from osb.enums import Allowed, Mode, UpdateOutcome, UpdatePhase, Work
from osb.errors import check, text_of
from osb.holding import NO_ATTRIBUTES, Holding, digest_to, due, holding_from, holding_to
from osb.ids import Id
from osb.messages import Answer, Request

WITH_GOAL = frozenset((UpdatePhase.PENDING, UpdatePhase.UPDATING, UpdatePhase.MENDING))
"""The phases that lead to settings."""


@dataclass(frozen=True)
class Settings:
    """What an instance is set to. What goes into the digests is the broker's choice."""

    plan: Id
    parameters: bytes = NO_ATTRIBUTES
    """The digest of the parameters, 32 bytes."""
    version: bytes = NO_ATTRIBUTES
    """The digest of `maintenance_info`, 32 bytes."""

    def asked_for(self, change: Change) -> Settings:
        """The settings that an Update asks for which comes for an instance with these: what the change names, and else
        what there was.
        """
        asked = CSettings()
        lib.osb_update_asked_for(settings_to(self), _change_to(change), asked)
        return settings_from(asked)


@dataclass(frozen=True)
class Change:
    """The settings that an Update names. What it doesn't name is None, and stays."""

    plan: Id | None = None
    parameters: bytes | None = None
    version: bytes | None = None


@dataclass(frozen=True)
class Update:
    """A request to change an instance: `PATCH` on the instance."""

    service: Id
    change: Change
    number: int = 0
    """Its number among the Updates of the instance, from 1, or 0 if it has none."""
    accepts_incomplete: bool = True
    """Whether the operation may be asynchronous."""


@dataclass(frozen=True)
class UpdateWork:
    """Work of an Update that is due and pending: an update to these settings."""

    mode: Mode
    """How it is done."""
    to: Settings


@dataclass(frozen=True)
class MaintenanceConflict:
    """The answer to an Update has the status 422 and the error `MaintenanceInfoConflict`."""


@dataclass(frozen=True)
class Found:
    """The answer to a Fetch has the status 200, these settings, and the number that is held."""

    settings: Settings
    number: int


UpdateBegun = Union[Answer, UpdateWork, MaintenanceConflict]
"""What comes of an Update at once."""


@dataclass(frozen=True)
class UpdateHolding:
    """What a broker holds of the updates of an instance. Each call gives the next one, and changes none.

    `UpdateHolding(settings)` is that of an instance of which no Update was judged, with the settings of its Provision.
    """

    settings: Settings
    """Those of the Provision, or of the last update that has succeeded."""
    number: int = 0
    """The greatest number of an Update that was judged, or 0."""
    phase: UpdatePhase = UpdatePhase.SETTLED
    to: Settings | None = None
    """The settings to which the pending work or the operation leads, or None if there is none."""

    @classmethod
    def new(cls, settings: Settings) -> UpdateHolding:
        """That of an instance of which no Update was judged, with the settings of its Provision."""
        holding = CUpdateHolding()
        lib.osb_update_new(settings_to(settings), holding)
        return update_holding_from(holding)

    @property
    def is_under_way(self) -> bool:
        """Whether the work of an Update is pending, or its operation runs."""
        return bool(lib.osb_update_is_under_way(update_holding_to(self)))

    def begin(self, instance: Holding, allowed: Allowed, update: Update) -> tuple[UpdateHolding, UpdateBegun]:
        """Begins with an Update: gives the answer to send, or the work that is due and pending.

        `instance` is the holding of the instance. `allowed` is what the catalogue has for the settings that the Update
        asks for: `settings.asked_for(update.change)`. include/osb.h has the rules, line by line.

        If the holding differs, write it to the database before the work begins or the answer is sent.
        """
        holding, begun = update_holding_to(self), CUpdateBegun()
        beside, asked = holding_to(instance), update_to(update)
        check(lib.osb_update_begin(holding, beside, Allowed(allowed).value, asked, begun))
        return update_holding_from(holding), _begun_from(begun)

    def end(self, mode: Mode, outcome: UpdateOutcome) -> tuple[UpdateHolding, Answer]:
        """Ends the pending work of an Update with this outcome, and gives the answer to the Update. The mode is that of
        the `UpdateWork`. Write the holding to the database before the answer is sent. Raises NOTHING_BEGUN.
        """
        holding, answer = update_holding_to(self), CAnswer()
        check(lib.osb_update_end(holding, mode_to(mode), UpdateOutcome(outcome).value, answer))
        return update_holding_from(holding), answer_from(answer)

    def finish(self, ok: bool) -> UpdateHolding:
        """Ends the operation of an Update, which succeeded (ok) or failed. If it succeeded, the holding is settled with
        the settings of the operation, and else it is failed. Raises NOTHING_UPDATING.
        """
        holding = update_holding_to(self)
        check(lib.osb_update_finish(holding, ok))
        return update_holding_from(holding)

    def poll(self, instance: Holding) -> Answer:
        """The answer to a Poll of an instance that is available: 200, in progress while an update is under way,
        succeeded if the holding is settled, failed if the latest update has failed. If it raises NOT_AVAILABLE,
        `Holding.begin` answers.
        """
        answer = CAnswer()
        check(lib.osb_update_poll(update_holding_to(self), holding_to(instance), answer))
        return answer_from(answer)

    def fetch(self, instance: Holding) -> Answer | Found:
        """What comes of a Fetch of the instance that its service and plan allow: the settings and the number that is
        held, if the instance is available and the holding is settled; 422 `ConcurrencyError` if the instance is
        available and the holding isn't settled; else 404.
        """
        fetched = CUpdateFetched()
        check(lib.osb_update_fetch(update_holding_to(self), holding_to(instance), fetched))
        if fetched.is_found:
            return Found(settings_from(fetched.settings), fetched.number)
        return answer_from(fetched.answer)

    def begin_instance(
        self,
        instance: Holding,
        mode: Mode | None,
        request: Request,
        *,
        any_held: bool,
        first_poll: bool = False,
        attributes: bytes = NO_ATTRIBUTES,
    ) -> tuple[Holding, Answer | Work]:
        """Begins with a request to an instance of which an update may be under way, as `Holding.begin_if` does.
        `any_held` is whether `is_held` is true of a binding of the instance. If it is, or while an update is under way,
        nothing begins: a Deprovision whose work would be due is answered with 422 `ConcurrencyError`, and nothing
        changes. Gives the next holding of the instance. If the instance has a row, compare the settings that a
        Provision asks for first (docs/c.md).
        """
        after, begun = holding_to(instance), CBegun()
        digest, asked = bytes(digest_to(attributes)), request_to(request)
        check(
            lib.osb_update_begin_instance(
                update_holding_to(self),
                after,
                mode_to(mode),
                first_poll,
                asked,
                digest,
                any_held,
                begun,
            )
        )
        return holding_from(after), due(begun)

    def to_text(self) -> str:
        """The text of the holding of updates, for a column of a database."""
        return text_of(lib.osb_update_holding_to_text, update_holding_to(self)).decode()

    @classmethod
    def from_text(cls, text: str) -> UpdateHolding:
        """Reads the text of a holding of updates. Raises NOT_UTF8, NOT_JSON, NOT_AN_OBJECT, BAD_VERSION, BAD_OUTER,
        BAD_MEMBER.
        """
        holding, given = CUpdateHolding(), utf8(text)
        check(lib.osb_update_holding_from_text(given, len(given), holding))
        return update_holding_from(holding)


def number_to(number: int) -> int:
    """ctypes would let another number wrap around."""
    if number not in range(2**64):
        raise ValueError("the number of an Update is from 0 to 2^64 - 1")
    return number


def settings_to(settings: Settings) -> CSettings:
    return CSettings(
        id_to(settings.plan),
        digest_to(settings.parameters),
        digest_to(settings.version),
    )


def settings_from(settings: CSettings) -> Settings:
    return Settings(id_from(settings.plan), bytes(settings.parameters), bytes(settings.version))


def _change_from(change: CChange) -> Change:
    return Change(
        id_from(change.plan) if change.has_plan else None,
        bytes(change.parameters) if change.has_parameters else None,
        bytes(change.version) if change.has_version else None,
    )


def _change_to(change: Change) -> CChange:
    made = CChange(
        has_plan=change.plan is not None,
        has_parameters=change.parameters is not None,
        has_version=change.version is not None,
    )
    if change.plan is not None:
        made.plan = id_to(change.plan)
    if change.parameters is not None:
        made.parameters = digest_to(change.parameters)
    if change.version is not None:
        made.version = digest_to(change.version)
    return made


def update_to(update: Update) -> CUpdate:
    service, change = id_to(update.service), _change_to(update.change)
    return CUpdate(service, change, number_to(update.number), bool(update.accepts_incomplete))


def update_from(update: CUpdate) -> Update:
    service, change = id_from(update.service), _change_from(update.change)
    return Update(service, change, update.number, bool(update.accepts_incomplete))


def update_holding_to(held: UpdateHolding) -> CUpdateHolding:
    if (held.to is not None) != (held.phase in WITH_GOAL):
        raise ValueError("an UpdateHolding has the settings to which it leads exactly while an update is under way")
    goal = CSettings() if held.to is None else settings_to(held.to)
    return CUpdateHolding(
        settings_to(held.settings),
        goal,
        number_to(held.number),
        UpdatePhase(held.phase).value,
    )


def update_holding_from(held: CUpdateHolding) -> UpdateHolding:
    phase = UpdatePhase(held.phase)
    goal = settings_from(held.to) if phase in WITH_GOAL else None
    return UpdateHolding(settings_from(held.settings), held.number, phase, goal)


def _begun_from(begun: CUpdateBegun) -> UpdateBegun:
    if begun.has_work:
        return UpdateWork(Mode(begun.mode), settings_from(begun.to))
    return MaintenanceConflict() if begun.is_maintenance_conflict else answer_from(begun.answer)
