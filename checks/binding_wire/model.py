"""What a request of a binding, its answer or a catalogue says, read by Python's json and urllib.

The rules are those of `wire.model`, and of the bindings what the crate osb_binding_wire documents.
"""

from __future__ import annotations

from typing import Any

from wire import model
from wire.model import Refused

KINDS = {**model.KINDS, ("GET", False): "fetch"}
PARTS = ("bind_resource", "parameters", "context", "predecessor_binding_id")


# ---- requests


def place_at(path: bytes) -> tuple[list[bytes], bool] | None:
    """The segments of the two ids, and whether the last operation is asked for."""
    front = b"/v2/service_instances/"
    instance, slash, more = path[len(front) :].partition(b"/")
    rest = more.partition(b"/")[2]
    if not path.startswith(front) or not (slash + more).startswith(b"/service_bindings/"):
        return None
    binding, slash, end = rest.partition(b"/")
    if slash and end != b"last_operation":
        return None
    return [instance, binding], bool(slash)


def received(method: str, prefix: bytes, target: bytes, body: bytes, longest: int) -> model.Received:
    """What is taken of a request, or `Refused` with the status and the description."""
    return model.received(method, prefix, target, body, longest, place_at, KINDS, ())


# ---- bodies


def object_of(body: bytes) -> bytes | None:
    return None if model.members(body) is None else body


def bound(kind: str, status: int, body: bytes) -> bytes | None:
    return object_of(body) if kind == "provision" and status in (200, 201) else None


def fetched(status: int, body: bytes) -> bytes | None:
    return object_of(body) if status == 200 else None


def lacks_app(body: bytes) -> bool:
    found = model.members(body)
    if found is None:
        return True
    resource = found.get("bind_resource")
    places = [found, dict(resource.pairs) if isinstance(resource, model.Pairs) else {}]
    return not any(model.text_at(place, "app_guid") for place in places)


# ---- catalogues


def flag(of: dict[str, Any], name: str, otherwise: bool) -> bool:
    says = of.get(name, otherwise)
    if not isinstance(says, bool):
        raise Refused("NOT_A_BOOLEAN")
    return says


def modes(document: bytes) -> dict[tuple[int, int], str]:
    """How the plans of a document bind, or `Refused` with the first fault."""
    found: dict[tuple[int, int], str] = {}
    top = model.top_of(document)
    for service in model.listed(top, "services", "NO_SERVICES"):
        number = model.own_number(service, "BAD_SERVICE")
        bindable = flag(service, "bindable", False)
        asynchronous = flag(service, "x-osb-asynchronous-bindings", False)
        retrievable = flag(service, "bindings_retrievable", False)
        for plan in model.listed(service, "plans", "NO_PLANS"):
            pair = number, model.own_number(plan, "BAD_PLAN")
            binds = flag(plan, "bindable", bindable)
            later = flag(plan, "x-osb-asynchronous-bindings", asynchronous)
            if not binds:
                continue
            if later and not retrievable:
                raise Refused("NOT_RETRIEVABLE")
            if pair in found:
                raise Refused("PLAN_TWICE")
            found[pair] = "async" if later else "sync"
    return found


def retrievable(service: str, document: bytes) -> bool:
    """Whether the first service of this id says that its bindings can be fetched."""
    try:
        services = model.listed(model.top_of(document), "services", "none")
    except Refused:
        return False
    numbers = [
        (model.number_of(model.text_at(entry, "id") or ""), entry.get("bindings_retrievable")) for entry in services
    ]
    return next((says is True for number, says in numbers if number == model.number_of(service)), False)
