"""What an Update, a Fetch, an answer to one or a catalogue says, and how each is written, by Python's json and urllib.

The rules are those of docs/wire.md. What is read as JSON, as a path or as a query is read by `wire.model`.
"""

from __future__ import annotations

import hashlib
import json
import re
import urllib.parse
from collections.abc import Iterator
from decimal import Decimal
from typing import Any, NamedTuple

from update.texts import is_number
from update.texts import number as integer_or_float
from wire import model
from wire.model import NumberText, Pairs, Refused
from wire.written import REASONS
from wire.written import answer as answer_text
from wire.written import form, rejection

LAST = 2**64 - 1
NONE = bytes(32)
"""The digest of no parameters, and of no version."""


# ---- what a body names

Members = dict[str, Any]


def members_of(body: bytes) -> Members | None:
    """The members of the object that a body is, with numbers as they are written. The last of a name counts."""
    pairs = model.object_in(body)
    return None if pairs is None else dict(pairs)


def text_at(found: Members, name: str) -> str | None:
    """The string of this name. A number is none, though its text stands for it."""
    return None if isinstance(found.get(name), NumberText) else model.text_at(found, name)


def id_at(found: Members, name: str) -> int | None:
    """The number of the id of this name."""
    return model.number_of(text_at(found, name) or "")


def version_in(found: Members) -> str | None:
    info = found.get("maintenance_info")
    return text_at(dict(info.pairs), "version") if isinstance(info, Pairs) else None


def version_digest(version: str) -> bytes:
    return hashlib.sha256(version.encode()).digest() if version else NONE


def number_of(value: Any) -> int | None:
    """The number of an Update that a value is: an integer from 1, in digits alone."""
    if not isinstance(value, NumberText) or not re.fullmatch("[0-9]+", value):
        return None
    return int(value) if 1 <= int(value) <= LAST else None


def says_none(value: Any) -> bool:
    """Whether parameters are `null` or an object without members."""
    return value is None or isinstance(value, Pairs) and not value.pairs


def names_parameters(found: Members, number: int) -> bool:
    return "parameters" in found and not (number == 0 and says_none(found["parameters"]))


class Change(NamedTuple):
    """What an Update asks for: the numbers of ids, and digests."""

    service: int | None
    plan: int | None
    parameters: bytes | None
    version: bytes | None
    number: int
    accepts: bool


def change_in(found: Members, accepts: bool) -> Change:
    """What an object asks for, or `Refused` with its first fault."""
    service, plan = id_at(found, "service_id"), id_at(found, "plan_id")
    if service is None:
        raise Refused("400 service_id must be a string of 1 to 255 bytes.")
    if plan is None and "plan_id" in found:
        raise Refused("400 plan_id must be a string of 1 to 255 bytes.")
    number = number_of(found["x-osb-update"]) if "x-osb-update" in found else 0
    if number is None:
        raise Refused("400 x-osb-update must be an integer from 1 to 2^64 - 1.")
    parameters = model.digest_of(found["parameters"]) if names_parameters(found, number) else None
    version = version_in(found)
    return Change(service, plan, parameters, None if version is None else version_digest(version), number, accepts)


class Parts(NamedTuple):
    """The parts of a body, as texts."""

    parameters: str | None
    version: str | None
    context: str | None
    previous_values: str | None


def parts(number: int, body: bytes) -> Parts:
    found = members_of(body) or {}
    named = {name: model.compact(value) for name, value in found.items()}
    parameters = named["parameters"] if names_parameters(found, number) else None
    return Parts(parameters, version_in(found), named.get("context"), named.get("previous_values"))


# ---- requests that are read


class Received(NamedTuple):
    """What a broker takes of a request. A Fetch has no change, and its service and plan may be missing."""

    id: int | None
    change: Change | None
    instance: str
    service: str | None
    plan: str | None
    parts: Parts


def received(method: str, prefix: bytes, target: bytes, body: bytes, longest: int) -> Received:
    """What is taken of a request, or `Refused` with the status and the description."""
    path, _, query = target.partition(b"?")
    places = [place for place in map(model.place_at, model.behind(prefix, path)) if place is not None]
    if not places:
        raise Refused("404 There is no such target.")
    (segment,), of_last_operation = places[0]
    if of_last_operation or method not in ("PATCH", "GET"):
        raise Refused("405 The target has no such method.")
    instance = model.id_text(segment, "instance")
    if len(body) > longest:
        raise Refused("413 The body is too long.")
    if method == "GET":
        service, plan, _ = model.of_query("fetch", query)
        return Received(model.number_of(instance), None, instance, service, plan, Parts(*[None] * 4))
    accepts = model.of_query("provision", query)[2]
    found = members_of(body)
    if found is None:
        raise Refused("400 The body must be a JSON object.")
    change = change_in(found, accepts == "true")
    texts = text_at(found, "service_id"), text_at(found, "plan_id")
    return Received(model.number_of(instance), change, instance, *texts, parts(change.number, body))


def refused(why: Refused) -> tuple[int, str]:
    """The status and the body with which a request is rejected."""
    status, _, description = str(why).partition(" ")
    return rejection(int(status), description, REASONS[int(status)])


# ---- requests that are written


def value_in(text: str | None) -> Any:
    """The value of a text of JSON, or `Refused`; none if there is no text."""
    return None if text is None else model.value_of(text.encode())


def judge_ids(instance: str, service: str, plan: str | None) -> None:
    """Nothing, or `Refused` with the first fault."""
    if instance in (".", "..") or model.number_of(instance) is None:
        raise Refused("BadInstance")
    if model.number_of(service) is None:
        raise Refused("BadService")
    if plan is not None and model.number_of(plan) is None:
        raise Refused("BadPlan")


def judge_json(text: str | None, fault: str) -> None:
    try:
        value_in(text)
    except Refused:
        raise Refused(fault) from None


def said(texts: dict[str, str | None], number: int) -> str:
    """The object of what these texts say, in the order of their names. A text of JSON that isn't JSON is left out."""
    pairs: list[tuple[str, Any]] = []
    for name, text in sorted(texts.items()):
        if text is None:
            continue
        if name in ("context", "metadata", "parameters"):
            try:
                pairs.append((name, value_in(text)))
            except Refused:
                continue
        elif name == "maintenance_info":
            pairs.append((name, Pairs([("version", text)])))
        else:
            pairs.append((name, text))
    if number:
        pairs.append(("x-osb-update", NumberText(str(number))))
    return model.compact(Pairs(pairs))


class Sent(NamedTuple):
    """An Update as it is sent, and what it asks for."""

    target: str
    body: str
    id: int | None
    change: Change


def target_of(prefix: str, instance: str) -> str:
    return f"{prefix}/v2/service_instances/{urllib.parse.quote(instance, safe='')}"


def update(
    prefix: str,
    accepts: bool,
    number: int,
    instance: str,
    service: str,
    plan: str | None,
    parameters: str | None,
    version: str | None,
    context: str | None,
) -> Sent:
    """What is sent, or `Refused` with the first fault."""
    judge_ids(instance, service, plan)
    judge_json(parameters, "BadParameters")
    judge_json(context, "BadContext")
    value = value_in(parameters)
    is_named = parameters is not None and not (number == 0 and says_none(value))
    change = Change(
        model.number_of(service),
        None if plan is None else model.number_of(plan),
        model.digest_of(value) if is_named else None,
        None if version is None else version_digest(version),
        number,
        accepts,
    )
    query = f"?{form([('accepts_incomplete', 'true')])}" if accepts else ""
    texts = {"context": context, "maintenance_info": version, "parameters": parameters, "plan_id": plan}
    body = said({**texts, "service_id": service}, number)
    return Sent(target_of(prefix, instance) + query, body, model.number_of(instance), change)


def fetch(prefix: str, instance: str, service: str, plan: str) -> str:
    """The target of a Fetch, or `Refused` with the first fault."""
    judge_ids(instance, service, plan)
    return f"{target_of(prefix, instance)}?{form([('service_id', service), ('plan_id', plan)])}"


# ---- the values of a body that is written again, as serde_json has them


def decimal(value: float) -> str:
    """A float in the fewest digits: `1e+20` beyond 16 digits before the point, and `1e-6` beyond 5 zeroes behind it."""
    sign, places, exponent = Decimal(repr(value)).normalize().as_tuple()
    digits, point = "".join(map(str, places)), len(places) + int(exponent)
    front = "-" if sign else ""
    if value == 0:
        return f"{front}0.0"
    if len(digits) <= point <= 16:
        return f"{front}{digits:0<{point}}.0"
    if 0 < point <= 16:
        return f"{front}{digits[:point]}.{digits[point:]}"
    if -5 < point <= 0:
        return f"{front}0.{'0' * -point}{digits}"
    rest = f".{digits[1:]}" if digits[1:] else ""
    return f"{front}{digits[0]}{rest}e{point - 1:+}"


def number_again(text: str) -> NumberText:
    """A number as it is written again: an integer of 64 bits as it is, any other as a float."""
    if re.fullmatch("-?[0-9]+", text) and text != "-0" and -(2**63) <= int(text) <= LAST:
        return NumberText(text)
    return NumberText(decimal(model.finite(text)))


def object_again(text: str) -> Pairs | None:
    """The object that a text is, with members in ascending order and the last of each name."""
    try:
        value = model.read(text.encode(), number_again)
    except Refused:
        return None
    if not isinstance(value, Pairs):
        return None
    again = model.ascending(value)
    assert isinstance(again, Pairs)
    return again


# ---- answers

WORDS = {"async-required": "AsyncRequired", "concurrency-error": "ConcurrencyError", "other-error": "error"}


def answer(status: int, body: bytes) -> str:
    """What a platform takes of the response to an Update: as of a Provision."""
    read, _, word = model.answer("provision", status, body).partition(" ")
    return f"{read} {WORDS.get(word, word)}" if word else read


def success(status: int, operation: str | None, address: str | None, metadata: str | None) -> str:
    found: list[tuple[str, Any]] = [] if address is None else [("dashboard_url", address)]
    value = None if metadata is None else object_again(metadata)
    found += [] if value is None else [("metadata", value)]
    if status == 202 and operation is not None and len(operation) <= 10_000:
        found.append(("operation", operation))
    return model.compact(Pairs(found))


def failure(status: int, word: str, description: str | None, usable: bool | None, repeatable: bool | None) -> str:
    text = answer_text(status, word, description)
    flags = {"instance_usable": usable, "update_repeatable": repeatable}
    told = {name: flag for name, flag in flags.items() if flag is not None}
    return model.compact(Pairs(sorted({**json.loads(text), **told}.items()))) if text else text


class Fetched(NamedTuple):
    """What a platform takes of the response to a Fetch: the settings and the number, if it reports them, and texts."""

    reported: tuple[int, bytes, bytes, int] | None
    texts: list[str | None]


def fetched(status: int, body: bytes) -> Fetched:
    found = (members_of(body) if status == 200 else None) or {}
    plan, number = id_at(found, "plan_id"), number_of(found.get("x-osb-update"))
    version = version_in(found)
    reported = None
    if plan is not None and number is not None and "parameters" in found:
        reported = plan, model.digest_of(found["parameters"]), version_digest(version or ""), number
    named = [model.compact(found[name]) if name in found else None for name in ("parameters", "metadata")]
    ids = [text_at(found, name) for name in ("service_id", "plan_id")]
    return Fetched(reported, [*ids, named[0], version, text_at(found, "dashboard_url"), named[1]])


def written_fetched(
    number: int,
    service: str,
    plan: str,
    parameters: str | None,
    version: str | None,
    address: str | None,
    metadata: str | None,
) -> str:
    texts = {"dashboard_url": address, "maintenance_info": version, "metadata": metadata, "parameters": parameters}
    return said({**texts, "plan_id": plan, "service_id": service}, number)


# ---- catalogues


class Plan(NamedTuple):
    """What a catalogue says of a plan's updates."""

    updateable: bool
    retrievable: bool
    asynchronous: bool | None
    version: str | None
    longest_poll: int | None


def document_in(document: bytes) -> Members | None:
    """The members of a document, with its integers below 2^64 as integers; none if it isn't JSON."""
    try:
        value = model.read(document, integer_or_float)
    except Refused:
        return None
    return dict(value.pairs) if isinstance(value, Pairs) else {}


def flag_at(found: Members, name: str) -> bool | None:
    value = found.get(name)
    return value if isinstance(value, bool) else None


def pairs_in(document: bytes) -> Iterator[tuple[Members, Members]]:
    """Each plan beside its service."""
    for service in model.entries(document_in(document) or {}, "services"):
        for plan in model.entries(service, "plans"):
            yield service, plan


def plan(service: str, plan: str, document: bytes) -> Plan | None:
    """What is said of the first plan of this id, of a service of that id."""
    wanted = model.number_of(service), model.number_of(plan)
    for of, found in pairs_in(document):
        if (model.number_at(of), model.number_at(found)) == wanted:
            own = flag_at(found, "plan_updateable")
            longest = found.get("maximum_polling_duration")
            return Plan(
                bool(flag_at(of, "plan_updateable")) if own is None else own,
                bool(flag_at(of, "instances_retrievable")),
                flag_at(found, "x-osb-asynchronous-updates"),
                version_in(found),
                longest if is_number(longest) else None,
            )
    return None


def numbers(document: bytes) -> bool:
    return bool(flag_at(document_in(document) or {}, "x-osb-updates"))


def sound(document: bytes) -> bool:
    """Whether what is said of updates has the types that it must have."""
    plans = [found for _, found in pairs_in(document)]
    flags = [(document_in(document) or {}, "x-osb-updates")]
    flags += [(found, "x-osb-asynchronous-updates") for found in plans]
    longest = [found["maximum_polling_duration"] for found in plans if "maximum_polling_duration" in found]
    return all(isinstance(of.get(name, True), bool) for of, name in flags) and all(map(is_number, longest))


def served(document: bytes) -> str | None:
    pairs = model.object_in(document)
    if pairs is None:
        return None
    return model.compact(Pairs([("x-osb-updates", True), *(pair for pair in pairs if pair[0] != "x-osb-updates")]))


def allowed(service: str, held: str, asked: str, version: str | None, mode: str, document: bytes) -> str:
    """Whether an Update from one plan to another is let be done: its mode, or why not."""
    left, wanted = plan(service, held, document), plan(service, asked, document)
    if wanted is None:
        return "400"
    if model.number_of(held) != model.number_of(asked) and not (left and left.updateable):
        return "422"
    if wanted.version is not None and version is not None and version != wanted.version:
        return "conflict"
    return mode if wanted.asynchronous is None else "async" if wanted.asynchronous else "sync"
