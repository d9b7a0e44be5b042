"""What an answer, a request or a catalogue says, read by Python's json, urllib, base64 and hashlib.

The rules are those of docs/wire.md.
"""

from __future__ import annotations

import base64
import binascii
import hashlib
import json
import math
import re
import urllib.parse
import uuid
from collections.abc import Callable, Mapping, Sequence
from contextlib import suppress
from typing import Any, NamedTuple

# What gateways, proxies and servers say of themselves.
OF_THE_WAY = {401, 403, 404, 405, 407, 408, 412, 413, 414, 415, 429, 431}
GUID = re.compile(r"[0-9a-f]{8}(-[0-9a-f]{4}){3}-[0-9a-f]{12}\Z")
LONGEST_ID = 255
# What the kit's reader takes of arrays and objects within one another.
DEEPEST = 127


class Refused(Exception):
    """A text isn't JSON by the rules of docs/wire.md, or a call has the status of this name, or a request is rejected
    with this HTTP status and description.
    """


class Pairs:
    """An object with every member that it is written with."""

    def __init__(self, pairs: list[tuple[str, Any]]) -> None:
        self.pairs = pairs


# ---- JSON, as Python reads it, and stricter where docs/wire.md says so


def finite(text: str) -> float:
    value = float(text)
    if math.isinf(value):
        raise Refused(text)
    return value


def refuse(word: str) -> Any:
    raise Refused(word)


def is_sound(value: Any, deep: int = 0) -> bool:
    """Whether no string has a lone surrogate, and nothing nests too deep."""
    if isinstance(value, str):
        return not any(0xD800 <= ord(c) < 0xE000 for c in value)
    if isinstance(value, list):
        return deep < DEEPEST and all(is_sound(element, deep + 1) for element in value)
    if isinstance(value, Pairs):
        return deep < DEEPEST and all(is_sound(name) and is_sound(pair, deep + 1) for name, pair in value.pairs)
    return True


def read(body: bytes, number: Callable[[str], Any], deep: int = 0) -> Any:
    """The value of a text, with its numbers as is said, or `Refused`."""
    with suppress(ValueError, RecursionError, Refused):
        text = body.decode()
        value = json.loads(text, parse_constant=refuse, parse_float=number, parse_int=number, object_pairs_hook=Pairs)
        if is_sound(value, deep):
            return value
    raise Refused("NOT_JSON")


def members(body: bytes) -> dict[str, Any] | None:
    """The members of the object that a body is. If a name stands twice, the last counts."""
    try:
        value = read(body, finite)
    except Refused:
        return None
    return dict(value.pairs) if isinstance(value, Pairs) else None


def text_at(found: dict[str, Any], name: str) -> str | None:
    value = found.get(name)
    return value if isinstance(value, str) else None


# ---- answers

ERRORS = {"AsyncRequired": "async-required", "ConcurrencyError": "concurrency-error"}


def body_of(kind: str, status: int, found: dict[str, Any] | None) -> str:
    if found is None:
        return "malformed"
    if kind != "poll" and status in (200, 201, 202):
        return "empty"
    if kind == "poll" and status == 200:
        state = text_at(found, "state")
        return state.replace(" ", "-") if state in ("in progress", "succeeded", "failed") else "empty"
    error = text_at(found, "error")
    if error is None:
        return "empty"
    return ERRORS.get(error, "other-error")


def answer(kind: str, status: int, body: bytes) -> str:
    """The status and what the body says, or `none` if the answer isn't surely the broker's."""
    found = members(body)
    if kind == "provision" and 400 <= status <= 499 and (found is None or status in OF_THE_WAY):
        return "none"
    return f"{status} {body_of(kind, status, found)}"


# ---- requests


def one(pairs: list[tuple[str, str]], name: str) -> str | None:
    found = [value for other, value in pairs if other == name]
    if len(found) > 1:
        raise Refused("400 A parameter stands twice.")
    return found[0] if found else None


def number_of(text: str) -> int | None:
    """The number of an id's text, or none if no id can have it."""
    if not 1 <= len(text.encode()) <= LONGEST_ID:
        return None
    if GUID.match(text):
        return uuid.UUID(text).int
    return int.from_bytes(hashlib.sha256(text.encode()).digest()[:16], "big")


def shown(number: int | None) -> str:
    """The number of an id, as a GUID, or `-` if there is none."""
    return "-" if number is None else str(uuid.UUID(int=number))


def guid(text: str | None) -> str:
    return shown(None if text is None else number_of(text))


def named(text: str | None, name: str, needed: bool) -> str | None:
    """The text of an id, or None if the request doesn't name it."""
    if text is None and not needed:
        return None
    if text is None or number_of(text) is None:
        raise Refused(f"400 {name} must be a string of 1 to 255 bytes.")
    return text


def plain(path: bytes) -> bytes:
    """The path in absolute form without scheme and host, with one slash at the front and none at the end."""
    if re.match(rb"https?://", path, re.IGNORECASE):
        rest = path.split(b"//", 1)[1]
        path = rest[rest.index(b"/") :] if b"/" in rest else b""
    path = re.sub(rb"\A/+", b"/", path)
    return path[:-1] if path.endswith(b"/") else path


def place_at(path: bytes) -> tuple[list[bytes], bool] | None:
    """The segment of the instance's id, and whether the last operation is asked for."""
    front = b"/v2/service_instances/"
    if not path.startswith(front):
        return None
    segment, slash, more = path[len(front) :].partition(b"/")
    if slash and more != b"last_operation":
        return None
    return [segment], bool(slash)


def behind(prefix: bytes, path: bytes) -> list[bytes]:
    """What stands behind the prefix: in the path as it stands, and in the plain path."""
    return [spelling[len(prefix) :] for spelling in (path, plain(path)) if spelling.startswith(prefix)]


# By the method, and whether the last operation is asked for.
KINDS = {("GET", True): "poll", ("PUT", False): "provision", ("DELETE", False): "deprovision"}


def id_text(segment: bytes, what: str) -> str:
    """The text of an id, decoded."""
    try:
        text = urllib.parse.unquote_to_bytes(segment).decode()
    except UnicodeDecodeError:
        text = ""
    if text in (".", "..") or number_of(text) is None:
        raise Refused(f"400 The {what} id must be UTF-8 of 1 to 255 bytes, and no dot segment.")
    return text


def body_ids(body: bytes, of_space: Sequence[str]) -> tuple[str | None, str | None]:
    found = members(body)
    if found is None:
        raise Refused("400 The body must be a JSON object.")
    service = named(text_at(found, "service_id"), "service_id", True)
    plan = named(text_at(found, "plan_id"), "plan_id", True)
    for name in of_space:
        if not text_at(found, name):
            raise Refused(f"400 {name} must be a string that is not empty.")
    return service, plan


def query_pairs(query: bytes) -> list[tuple[str, str]]:
    """The parameters. The bytes that aren't UTF-8 become U+FFFD, as those of an escape do."""
    quoted = urllib.parse.quote_from_bytes(query, safe="%&=+;/?:@!$'()*,~#[]")
    return urllib.parse.parse_qsl(quoted, keep_blank_values=True, errors="replace")


def of_query(kind: str, query: bytes) -> tuple[str | None, str | None, str | None]:
    """The service, the plan, and `accepts_incomplete`, as far as a request of the kind has them in its query."""
    pairs = query_pairs(query)
    service, plan, accepts = None, None, None
    if kind != "provision":
        service = named(one(pairs, "service_id"), "service_id", kind == "deprovision")
        plan = named(one(pairs, "plan_id"), "plan_id", kind == "deprovision")
    if kind != "fetch":
        accepts = one(pairs, "accepts_incomplete")
        if accepts not in (None, "true", "false"):
            raise Refused("400 accepts_incomplete must be true or false.")
    if kind == "poll":
        one(pairs, "operation")
    return service, plan, accepts


class Received(NamedTuple):
    """What a broker takes of a request: the texts of the ids, and the body of a Provision or a Bind."""

    kind: str
    ids: list[str]
    """Of the instance, and of the binding."""
    service: str | None
    plan: str | None
    accepts: str
    body: bytes

    def asked(self) -> str:
        """What is asked, with each id's number."""
        ids = " ".join(guid(text) for text in (*self.ids, self.service, self.plan))
        return f"{self.kind} {ids} {self.accepts}"


def asked(method: str, target: bytes, body: bytes, longest: int) -> str:
    """What a request asks, or the status and the description with which it is rejected."""
    try:
        return received(method, b"", target, body, longest).asked()
    except Refused as refused:
        return str(refused)


def received(
    method: str,
    prefix: bytes,
    target: bytes,
    body: bytes,
    longest: int,
    place_of: Callable[[bytes], tuple[list[bytes], bool] | None] = place_at,
    kinds: Mapping[tuple[str, bool], str] = KINDS,
    of_space: Sequence[str] = ("organization_guid", "space_guid"),
) -> Received:
    """What is taken of a request, or `Refused` with the status and the description."""
    path, _, query = target.partition(b"?")
    places = [place for place in map(place_of, behind(prefix, path)) if place is not None]
    if not places:
        raise Refused("404 There is no such target.")
    segments, of_last_operation = places[0]
    kind = kinds.get((method, of_last_operation))
    if kind is None:
        raise Refused("405 The target has no such method.")
    ids = [id_text(segment, what) for segment, what in zip(segments, ("instance", "binding"))]
    if len(body) > longest:
        raise Refused("413 The body is too long.")
    service, plan, accepts = of_query(kind, query)
    if kind == "provision":
        service, plan = body_ids(body, of_space)
    said = "-" if kind == "fetch" else accepts or "false"
    return Received(kind, ids, service, plan, said, body if kind == "provision" else b"")


# ---- the parts of a body, with numbers as they are written


class NumberText(str):
    """A number as it is written."""


def value_of(body: bytes) -> Any:
    """The value of a body, or `Refused`. Arrays and objects may nest one deeper than those of `members`."""
    return read(body, NumberText, -1)


def compact(value: Any) -> str:
    """The text of a value, with no spaces: members in their order, and those that stand twice stand twice."""
    if isinstance(value, NumberText):
        return str(value)
    if isinstance(value, list):
        return "[" + ",".join(compact(element) for element in value) + "]"
    if isinstance(value, Pairs):
        return "{" + ",".join(f"{json.dumps(k, ensure_ascii=False)}:{compact(v)}" for k, v in value.pairs) + "}"
    return json.dumps(value, ensure_ascii=False)


def ascending(value: Any) -> Any:
    """The value with each object's members in ascending order of names. If a name stands twice, the last counts."""
    if isinstance(value, list):
        return [ascending(element) for element in value]
    if isinstance(value, Pairs):
        return Pairs(sorted((name, ascending(inner)) for name, inner in dict(value.pairs).items()))
    return value


def object_in(body: bytes) -> list[tuple[str, Any]] | None:
    """Every member of the object that a body is."""
    try:
        value = value_of(body)
    except Refused:
        return None
    return value.pairs if isinstance(value, Pairs) else None


def member(body: bytes, name: str) -> str | None:
    found = dict(object_in(body) or [])
    return compact(found[name]) if name in found else None


PARTS = ("service_id", "plan_id", "parameters", "context", "maintenance_info")


def others(body: bytes) -> str | None:
    """The object of the members that have no text of their own."""
    pairs = object_in(body)
    return None if pairs is None else compact(Pairs([element for element in pairs if element[0] not in PARTS]))


def digest_of(value: Any) -> bytes:
    text = compact(ascending(value))
    return bytes(32) if text in ("{}", "null") else hashlib.sha256(text.encode()).digest()


def parameters_digest(text: bytes) -> bytes:
    return digest_of(value_of(text))


def attributes_digest(body: bytes) -> bytes:
    found = dict(object_in(body) or [])
    return digest_of(found["parameters"]) if "parameters" in found else bytes(32)


# ---- headers of identity


def identity(value: str) -> tuple[str, str] | None:
    """The platform and the object of X-Broker-API-Originating-Identity."""
    platform, _, encoded = value.partition(" ")
    try:
        decoded = base64.b64decode(encoded.encode(), validate=True)
    except binascii.Error:
        return None
    if not platform or base64.b64encode(decoded).decode() != encoded or members(decoded) is None:
        return None
    return platform, decoded.decode()


def request_identity(value: str) -> str | None:
    return value if value and all(c >= " " and c != "\x7f" for c in value) else None


# ---- details of answers


class Details(NamedTuple):
    """What the body of an answer says besides the answer."""

    description: str | None
    error: str | None
    dashboard_url: str | None
    operation: str | None
    metadata: str | None
    instance_usable: bool | None
    update_repeatable: bool | None


def details(body: bytes) -> Details:
    found = members(body) or {}
    operation = text_at(found, "operation")
    flags = [found.get(name) for name in ("instance_usable", "update_repeatable")]
    return Details(
        text_at(found, "description"),
        text_at(found, "error"),
        text_at(found, "dashboard_url"),
        operation if operation is not None and len(operation) <= 10_000 else None,
        member(body, "metadata"),
        *(flag if isinstance(flag, bool) else None for flag in flags),
    )


# ---- maintenance


def conflicts(sold: str | None, body: bytes) -> bool:
    info = (members(body) or {}).get("maintenance_info")
    named_version = dict(info.pairs).get("version") if isinstance(info, Pairs) else None
    return sold is not None and isinstance(named_version, str) and named_version != sold


def plan_version(document: bytes, service: int | None, plan: int | None) -> str | None:
    """The version of the first plan of this number, of the first service of this number that has one."""
    for service_entry in entries(members(document) or {}, "services"):
        plans = [own for own in entries(service_entry, "plans") if number_at(own) == plan]
        if number_at(service_entry) == service and plans:
            info = plans[0].get("maintenance_info")
            return text_at(dict(info.pairs), "version") if isinstance(info, Pairs) else None
    return None


def entries(of: dict[str, Any], name: str) -> list[dict[str, Any]]:
    return listed(of, name, "") if isinstance(of.get(name), list) else []


def number_at(of: dict[str, Any]) -> int | None:
    text = text_at(of, "id")
    return None if text is None else number_of(text)


def asks_for_catalogue(prefix: bytes, target: bytes) -> bool:
    return b"/v2/catalog" in behind(prefix, target.partition(b"?")[0])


# ---- catalogues


FLAGS = {
    "bindable": ("bindings", "BINDABLE_UNSERVED"),
    "plan_updateable": ("updating", "UPDATE_UNSERVED"),
    "instances_retrievable": ("fetching_instances", "INSTANCES_UNSERVED"),
    "bindings_retrievable": ("fetching_bindings", "BINDINGS_UNSERVED"),
}
"""The endpoint that each flag promises, and the status if the broker doesn't serve it."""


def served(document: bytes) -> bytes:
    object = object_in(document)
    if object is None:
        raise Refused("NOT_AN_OBJECT")
    kept = [pair for pair in object if pair[0] != "x-osb-tombstones"]
    return compact(Pairs([("x-osb-tombstones", True), *kept])).encode()


def listed(of: dict[str, Any], name: str, fault: str) -> list[dict[str, Any]]:
    found = of.get(name)
    if not isinstance(found, list):
        raise Refused(fault)
    return [dict(entry.pairs) if isinstance(entry, Pairs) else {} for entry in found]


def plan_mode(plan: dict[str, Any]) -> str:
    says = plan.get("x-osb-asynchronous", plan.get("asynchronous", False))
    if not isinstance(says, bool):
        raise Refused("BAD_PLAN_MODE")
    return "async" if says else "sync"


def own_number(of: dict[str, Any], fault: str) -> int:
    number = number_at(of)
    if number is None:
        raise Refused(fault)
    return number


def top_of(document: bytes) -> dict[str, Any]:
    """The members of a document, none if it is no object, or `Refused` if it isn't JSON."""
    value = read(document, finite)
    return dict(value.pairs) if isinstance(value, Pairs) else {}


def sold(document: bytes) -> dict[tuple[int, int], str]:
    """The modes of the plans that a document names, or `Refused` with the first fault."""
    modes: dict[tuple[int, int], str] = {}
    top = top_of(document)
    for service in listed(top, "services", "NO_SERVICES"):
        number = own_number(service, "BAD_SERVICE")
        for plan in listed(service, "plans", "NO_PLANS"):
            pair = number, own_number(plan, "BAD_PLAN")
            mode = plan_mode(plan)
            if pair in modes:
                raise Refused("PLAN_TWICE")
            modes[pair] = mode
    return modes


def judge_own(of: dict[str, Any], names: list[str]) -> None:
    name = text_at(of, "name")
    if not name:
        raise Refused("NO_NAME")
    if name in names:
        raise Refused("NAME_TWICE")
    if not text_at(of, "description"):
        raise Refused("NO_DESCRIPTION")
    names.append(name)


def judge_flags(of: dict[str, Any], names: list[str], serves: set[str]) -> None:
    for name in names:
        says = of.get(name, False)
        if not isinstance(says, bool):
            raise Refused("NOT_A_BOOLEAN")
        endpoint, status = FLAGS[name]
        if says and endpoint not in serves:
            raise Refused(status)


def judge(document: bytes, serves: set[str]) -> dict[tuple[int, int], str]:
    """The plans of a catalogue that can be kept, given the endpoints that are served, or `Refused`."""
    modes = sold(document)
    services = listed(top_of(document), "services", "")
    names: list[str] = []
    for service in services:
        judge_own(service, names)
        if "bindable" not in service:
            raise Refused("NO_BINDABLE")
        judge_flags(service, [*FLAGS], serves)
        plans = listed(service, "plans", "")
        if not plans:
            raise Refused("NO_PLAN")
        plan_names: list[str] = []
        for plan in plans:
            judge_own(plan, plan_names)
            judge_flags(plan, ["bindable", "plan_updateable"], serves)
    all_plans = [plan for service in services for plan in listed(service, "plans", "")]
    for texts in ({offer["id"] for offer in services}, {offer["id"] for offer in all_plans}):
        if len({number_of(text) for text in texts}) < len(texts):
            raise Refused("SAME_NUMBER")
    return modes
