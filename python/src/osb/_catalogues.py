"""The catalogue that a broker sells, as the document that it serves (docs/wire.md). `osb.wire` has these calls."""
from __future__ import annotations

import ctypes as c
from typing import Callable

from osb._crossing import endpoints_to, id_to, plan_from
from osb._header import CPlan
from osb._lib import lib
from osb._texts import utf8
from osb.enums import Status
from osb.errors import check, found, text_of
from osb.ids import Id
from osb.messages import Endpoints, Plan


def catalogue_plans(document: bytes) -> list[Plan]:
    """The plans that a catalogue's document names, as a broker answers it to GET /v2/catalog, in ascending order of
    service and plan; a plan is asynchronous if its member `x-osb-asynchronous` is true, or if `asynchronous` is true
    and it lacks that. Raises NOT_JSON, NO_SERVICES, BAD_SERVICE, NO_PLANS, BAD_PLAN, BAD_PLAN_MODE, PLAN_TWICE.
    """
    return plans_of(lib.osb_catalogue_plans, document)


def plans_of(call: Callable[..., int], document: bytes) -> list[Plan]:
    """The plans that a call reads, or else what its status stands for is raised. It is called again if there were too
    few places.
    """
    needed, buffer = c.c_size_t(0), (CPlan * 16)()
    while (status := call(document, len(document), buffer, len(buffer), needed)) == Status.TOO_SMALL:
        buffer = (CPlan * needed.value)()
    check(status)
    return [plan_from(plan) for plan in buffer[: needed.value]]


def check_catalogue(document: bytes, serves: Endpoints = Endpoints()) -> None:
    """Judges whether a broker that serves these endpoints can have the document as its catalogue (section Catalog
    Management): the plans as `catalogue_plans` reads them, and then the names, descriptions and flags of services and
    plans, and the numbers of their ids. docs/wire.md has the table. Raises what `catalogue_plans` does, then the first
    of NO_NAME to BINDINGS_UNSERVED in the document's order, then SAME_NUMBER.
    """
    check(lib.osb_catalogue_check(document, len(document), endpoints_to(serves)))


def served_catalogue(document: bytes) -> bytes:
    """The document that a broker serves as its catalogue: the object that is given, with no spaces, and with the member
    `x-osb-tombstones`, which is true. A platform with this library learns from it that the broker never creates an id
    again, which is this project's choice. Raises NOT_AN_OBJECT where the document isn't UTF-8, isn't JSON, or is no
    object.
    """
    return text_of(lib.osb_served_catalogue, document, len(document))


def plan_version(document: bytes, service: Id, plan: Id) -> str | None:
    """The `maintenance_info.version` that a catalogue's document has of a plan of a service, or None (section Catalog
    Management).
    """
    sold = id_to(service), id_to(plan)
    return found(Status.NO_PLAN_VERSION, lib.osb_plan_version, document, len(document), *sold)


def maintenance_conflict(version: str | None, body: bytes) -> None:
    """Judges whether the body of a Provision names another `maintenance_info.version` than the plan has, which is that
    of `plan_version` (section Maintenance Info Object). A plan or a request without a version conflicts with nothing.
    Raises `Refusal` (REFUSED_MAINTENANCE) of another version, and NOT_UTF8.
    """
    given = utf8(version or "")
    check(lib.osb_maintenance_conflict(version is not None, given, len(given), body, len(body)))
