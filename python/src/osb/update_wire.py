"""Updates and Fetches of an instance as HTTP and JSON have them (docs/wire.md), as `osb.wire` has other requests.

This is a broker's side. These calls of `osb.wire` serve for updates too: `read_answer` for an Update, as for a
Provision, `read_details`, `write_answer`, `parameters_digest` and `member_text`. Each call may raise MEMORY, except
`version_digest`.
"""
from __future__ import annotations

import ctypes as c
from dataclasses import dataclass
from typing import Union

from osb._crossing import answer_to, id_from, id_to, longest_to, mode_to, status_to
from osb._header import CPlanUpdates, CUpdateAsked, CUpdateReceived
from osb._lib import lib
from osb._texts import texts_of, utf8, with_lengths
from osb.enums import Allowed, Mode
from osb.errors import check, text_of
from osb.ids import Id
from osb.messages import Answer
from osb.update import Update, number_to, update_from

__all__ = [
    "Fetch",
    "PlanUpdates",
    "UpdateParts",
    "UpdateReceived",
    "numbers_updates",
    "plan_updates",
    "receive_update_request",
    "served_updates",
    "update_allowed",
    "update_flags_are_sound",
    "version_digest",
    "write_failure",
    "write_fetched",
    "write_success",
]

# ---- Requests.


@dataclass(frozen=True)
class Fetch:
    """A request for what an instance has: `GET` on the instance. Each id is None if the request doesn't name it."""

    service: Id | None = None
    plan: Id | None = None


@dataclass(frozen=True)
class UpdateParts:
    """The parts of an Update's body, in the form of `osb.wire.Parts`. Each is None if the Update doesn't name it, or if
    the body doesn't have it.
    """

    parameters: str | None = None
    version: str | None = None
    """The version that `maintenance_info` names, without quotes."""
    context: str | None = None
    previous_values: str | None = None
    """No decision is based on it."""


@dataclass(frozen=True)
class UpdateReceived:
    """What a broker takes from an Update or a Fetch."""

    id: Id
    """The instance that it is asked of."""
    asked: Union[Update, Fetch]
    """What is asked. `osb.UpdateHolding.begin` takes the Update."""
    instance: str
    """The text of the instance's id, as the path has it, decoded."""
    service: str | None
    """The text of the service's id. Only a Fetch may lack it."""
    plan: str | None
    """The text of the plan's id, if the request names it."""
    parts: UpdateParts
    """The parts of an Update's body. A Fetch has none."""


def receive_update_request(
    method: str, target: bytes, body: bytes, longest_body: int, prefix: str = ""
) -> UpdateReceived:
    """Reads what an Update (`PATCH`) or a Fetch (`GET`) asks of an instance, as `osb.wire.receive_request` reads other
    requests (sections Updating a Service Instance and Fetching a Service Instance). The number of an Update stands in
    its body under `x-osb-update`, which is this project's choice. Without a number, parameters that are `{}` or `null`
    aren't named. Raises `Refusal`, the first that fits in the order of docs/wire.md, NOT_UTF8, and ValueError if
    `longest_body` is below 0 or above `sys.maxsize`.
    """
    texts = [*with_lengths(prefix), longest_to(longest_body), *with_lengths(method)]
    texts += [target, len(target), body, len(body)]
    asked, lengths = CUpdateAsked(), CUpdateReceived()
    text = text_of(lib.osb_receive_update_request, *texts, asked, lengths)
    instance, text = text[: lengths.instance], text[lengths.instance :]
    service, plan, *parts = texts_of(
        text, lengths, "service", "plan", "parameters", "version", "context", "previous_values"
    )
    found = _asked_from(asked)
    return UpdateReceived(id_from(asked.id), found, instance.decode(), service, plan, UpdateParts(*parts))


# ---- Answers.


def write_success(
    status: int, operation: str | None = None, dashboard_url: str | None = None, metadata: str | None = None
) -> bytes:
    """The body of a 200, a 201 or a 202 to an Update or a Provision: an object of what is given (sections Provisioning
    and Updating a Service Instance). The operation is written in a 202 alone, and counts for none if it has more than
    10,000 characters. The metadata is the text of an object, and counts for none if it isn't. Raises NOT_UTF8, and
    ValueError if the status isn't from 0 to 65535.
    """
    return text_of(lib.osb_write_success, status_to(status), *_given(operation, dashboard_url, metadata))


def write_failure(
    answer: Answer,
    description: str | None = None,
    instance_usable: bool | None = None,
    update_repeatable: bool | None = None,
) -> bytes:
    """The body of an answer to an Update that failed, or to a Poll of one: what `osb.wire.write_answer` writes with no
    operation, with `instance_usable` and `update_repeatable`, each unless it is None (sections Updating a Service
    Instance, Polling Last Operation for Service Instances and Service Broker Errors). Raises NOT_UTF8.
    """
    flags: list[bool] = []
    for says in (instance_usable, update_repeatable):
        flags += [says is not None, bool(says)]
    return text_of(lib.osb_write_failure, answer_to(answer), *_given(description), *flags)


def write_fetched(
    service: str,
    plan: str,
    number: int,
    *,
    parameters: str | None,
    version: str | None = None,
    dashboard_url: str | None = None,
    metadata: str | None = None,
) -> bytes:
    """The body of a 200 to a Fetch of an instance: an object of the texts of its ids, of the number of `osb.Found`,
    unless it is 0, and of what else is given (section Fetching a Service Instance; the number is this project's
    choice). Parameters and metadata are texts of JSON, and are left out if they aren't. Without parameters a platform
    takes no settings from the answer, so pass `{}` if there are none. Raises NOT_UTF8, and ValueError if the number
    isn't from 0 to 2^64 - 1.
    """
    given = _given(parameters, version, dashboard_url, metadata)
    return text_of(lib.osb_write_fetched, *with_lengths(service, plan), *given, number_to(number))


# ---- The catalogue.


@dataclass(frozen=True)
class PlanUpdates:
    """What a catalogue says of a plan's updates (section Catalog Management)."""

    updateable: bool
    """Whether an instance of the plan can be changed to another plan (`plan_updateable`)."""
    retrievable: bool
    """Whether instances of the service can be fetched (`instances_retrievable`)."""
    asynchronous: bool | None
    """Whether updates to the plan are asynchronous (`x-osb-asynchronous-updates`), or None if the plan doesn't say."""
    version: str | None
    """The version of the plan's maintenance (`maintenance_info`)."""
    longest_poll: int | None
    """The longest time of polling, in seconds (`maximum_polling_duration`)."""


def plan_updates(document: bytes, service: Id, plan: Id) -> PlanUpdates | None:
    """What a catalogue's document says of the updates of a plan of a service, or None if it doesn't sell the plan
    (section Catalog Management; `x-osb-asynchronous-updates` is this project's choice). A member of another type counts
    as missing.
    """
    found = CPlanUpdates()
    sold = id_to(service), id_to(plan)
    text = text_of(lib.osb_plan_updates, document, len(document), *sold, found)
    if not found.is_sold:
        return None
    asynchronous = bool(found.asynchronous) if found.has_asynchronous else None
    version = text.decode() if found.has_version else None
    longest_poll = int(found.longest_poll) if found.has_longest_poll else None
    return PlanUpdates(bool(found.updateable), bool(found.retrievable), asynchronous, version, longest_poll)


def numbers_updates(document: bytes) -> bool:
    """Whether a catalogue's document says by `x-osb-updates` that its broker orders Updates by their numbers. To such a
    broker a platform sends numbers. This is this project's choice.
    """
    numbers = c.c_bool(False)
    check(lib.osb_numbers_updates(document, len(document), numbers))
    return numbers.value


def update_flags_are_sound(document: bytes) -> bool:
    """Whether what a catalogue's document says of updates has the types that it must have: `x-osb-updates`, and of each
    plan `x-osb-asynchronous-updates`, is true or false, and `maximum_polling_duration` of each plan is an integer from
    0 to 2^64 - 1, each if it is there. A broker doesn't start with a document that fails it. `osb.wire.check_catalogue`
    judges `plan_updateable` and `instances_retrievable`.
    """
    sound = c.c_bool(False)
    check(lib.osb_update_flags_are_sound(document, len(document), sound))
    return sound.value


def served_updates(document: bytes) -> bytes:
    """The document that a broker serves which orders Updates by their numbers: the object that is given, with no
    spaces, and with the member `x-osb-updates`, which is true. Give it what `osb.wire.served_catalogue` returns. The
    member is this project's choice. Raises NOT_AN_OBJECT if the document isn't UTF-8, isn't JSON, or is no object.
    """
    return text_of(lib.osb_served_updates, document, len(document))


def update_allowed(document: bytes, service: Id, held: Id, asked: Id, version: str | None, otherwise: Mode) -> Allowed:
    """Whether a catalogue's document lets an Update be done, for `osb.UpdateHolding.begin`. `held` is the plan that the
    instance has, and `asked` the one that the Update asks for, which is the same if it names none. `version` is the one
    that the Update names, or None. `otherwise` is the mode of the plan that is asked for. The first of these that fits
    (sections Updating a Service Instance and Maintenance Info Object):

    - The plan that is asked for isn't sold: `Allowed.REJECTED_400`.
    - The plan changes, and the one that is held isn't `plan_updateable` or isn't sold: `Allowed.REJECTED_422`.
    - The plan that is asked for has a version, and the Update names another: `Allowed.MAINTENANCE_CONFLICT`, whose
      answer is that of `osb.Refusal(osb.Status.REFUSED_MAINTENANCE)`.
    - The mode that `x-osb-asynchronous-updates` of the plan that is asked for says, or else `otherwise`.

    Raises NOT_UTF8.
    """
    found = c.c_uint8(0)
    plans, named = map(id_to, (service, held, asked)), _given(version)
    check(lib.osb_update_allowed(document, len(document), *plans, *named, mode_to(otherwise), found))
    return Allowed(found.value)


def version_digest(version: str) -> bytes:
    """The digest of a version of `maintenance_info`, 32 bytes, for `osb.Settings` and `osb.Change`: the SHA-256 of its
    text, and `osb.NO_ATTRIBUTES` of an empty text. This is this project's choice. Raises NOT_UTF8.
    """
    digest, given = c.create_string_buffer(32), utf8(version)
    check(lib.osb_version_digest(given, len(given), digest))
    return digest.raw


def _given(*texts: str | None) -> list[bytes | int]:
    """Whether each text is given, its bytes, and how many they are."""
    crossing: list[bytes | int] = []
    for text in texts:
        crossing += [text is not None, *with_lengths(text or "")]
    return crossing


def _asked_from(asked: CUpdateAsked) -> Update | Fetch:
    if not asked.is_fetch:
        return update_from(asked.update)
    service = id_from(asked.service) if asked.has_service else None
    return Fetch(service, id_from(asked.plan) if asked.has_plan else None)
