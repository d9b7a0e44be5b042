"""Values that are longer than any buffer of the package and of the library, or far more than usual.

Each call that may report that memory ran out takes such a value. What the call returns is compared with what Python's
readers and writers make of it. A call that gives up raises MEMORY.
"""
from __future__ import annotations

import base64
import hashlib
import json
from typing import Any
from urllib.parse import parse_qs, quote

import pytest
from osb import (
    Answer,
    BrokerRow,
    Endpoints,
    Holding,
    Id,
    OsbError,
    Plan,
    Record,
    Request,
    Settings,
    Update,
    UpdateHolding,
    UpdatePhase,
    binding_wire,
    update_wire,
    wire,
)
from osb.enums import Allowed, Body, Kind, Mode, Phase, State, Status
from osb_tests.support import ASYNC, ONE, SERVICE, SYNC, TWO, authorization, guids, request, status_of

OPERATION = "a" * 10_000
LONG = "\u00e9" * 1_000_000  # 2 MB
BLANKS = " " * 2_000_000
MEMBERS: dict[str, Any] = {f"member {number:04}": number for number in range(1_000)}
FURTHER = {"parameters": {"long": LONG}, **MEMBERS}
LARGEST = Id(2**64 - 1, 2**64 - 1)
LARGEST_GUID = "ffffffff-ffff-ffff-ffff-ffffffffffff"
LONGEST_ID = "/" * 255
LONG_NAMES = wire.Names(LONGEST_ID, LONGEST_ID, LONGEST_ID)
LONG_BINDING = binding_wire.BindingNames(LONGEST_ID, LONGEST_ID, LONGEST_ID, LONGEST_ID)


def compact(value: Any) -> bytes:
    """JSON as the library writes it: no spaces, and members in the order of their names."""
    return json.dumps(value, separators=(",", ":"), ensure_ascii=False, sort_keys=True).encode()


def long_request(kind: Kind) -> Request:
    """A request whose ids have as long texts as there are."""
    longest = Id.of_text(LONGEST_ID)
    return Request(kind, True, longest, longest, longest)


def guid(number: int) -> str:
    return f"00000000-0000-0000-0000-{number:012}"


# Two thousand plans of one service, of 2 MB.
PLANS = [
    {
        "id": guid(number),
        "name": f"plan {number}",
        "description": "d" * 1_000,
        "x-osb-asynchronous": number % 2 == 1,
        "maintenance_info": {"version": f"1.0.{number}"},
    }
    for number in range(1, 2_001)
]
CATALOGUE = compact(
    {
        "services": [
            {
                "id": str(SERVICE),
                "name": "service",
                "description": "a service",
                "bindable": True,
                "bindings_retrievable": True,
                "plans": PLANS,
            }
        ]
    }
)


@pytest.mark.parametrize("filler", [b" ", b"\n"])
def test_a_body_of_two_megabytes_is_read(filler: bytes) -> None:
    body = filler * 2_000_000 + b'{"state":"succeeded"}'
    assert wire.read_answer(Kind.POLL, 200, body) == Answer(200, Body.SUCCEEDED)


def test_a_string_of_two_megabytes_is_read() -> None:
    body = json.dumps({"operation": "a" * 2_000_000}).encode()
    assert wire.read_answer(Kind.PROVISION, 202, body) == Answer(202, Body.EMPTY)


def test_blanks_around_a_text_of_one_instance_change_nothing() -> None:
    record = Record(SERVICE, SYNC, 7, State.READY, None)
    assert Record.from_text(BLANKS + record.to_text() + BLANKS) == record
    assert Record.from_binding_text(BLANKS + record.to_binding_text() + BLANKS) == record
    holding = Holding(BrokerRow(SERVICE, ASYNC, Phase.READY), None, False)
    assert Holding.from_text(BLANKS + holding.to_text() + BLANKS) == holding
    assert Holding.from_binding_text(BLANKS + holding.to_binding_text() + BLANKS) == holding
    updates = UpdateHolding(Settings(SYNC), 7, UpdatePhase.UPDATING, Settings(ASYNC))
    assert UpdateHolding.from_text(BLANKS + updates.to_text() + BLANKS) == updates


def test_the_largest_numbers_are_written() -> None:
    record = Record(LARGEST, LARGEST, 2**64 - 1, State.CLEANING_POLLING, Kind.POLL)
    wanted = {"attempt": 2**64 - 1, "out": "poll", "plan": LARGEST_GUID, "service": LARGEST_GUID}
    assert (
        record.to_text()
        == record.to_binding_text()
        == compact(wanted | {"state": "cleaning-polling", "version": 1}).decode()
    )
    work = Request(Kind.DEPROVISION, True, LARGEST, LARGEST, LARGEST)
    holding = Holding(BrokerRow(LARGEST, LARGEST, Phase.DELETE_FAILED), work, False, b"\xff" * 32)
    named = {"plan": LARGEST_GUID, "service": LARGEST_GUID}
    held = {
        "attributes": "ff" * 32,
        "row": named | {"phase": "delete-failed"},
        "tombstone": False,
        "work": named | {"accepts_incomplete": True, "id": LARGEST_GUID, "kind": "deprovision"},
    }
    assert holding.to_text() == compact(held | {"version": 2}).decode()
    assert holding.to_binding_text() == compact(held | {"version": 1}).decode()
    settings = {"parameters": "ff" * 32, "plan": LARGEST_GUID, "version": "ff" * 32}
    updates = {"number": 2**64 - 1, "phase": "mending", "settings": settings, "to": settings, "version": 1}
    largest = Settings(LARGEST, b"\xff" * 32, b"\xff" * 32)
    assert UpdateHolding(largest, 2**64 - 1, UpdatePhase.MENDING, largest).to_text() == compact(updates).decode()


def test_17_further_members_of_a_body_are_written() -> None:
    further = {f"member{number}": number for number in range(17)}
    names = guids(request(Kind.PROVISION))
    body = wire.write_named_body(Kind.PROVISION, names, "organization", "space", json.dumps(further))
    written = json.loads(body)
    assert {name: written.pop(name) for name in further} == further
    assert sorted(written) == ["organization_guid", "plan_id", "service_id", "space_guid"]


@pytest.mark.parametrize("depth", [126, 127, 128])
def test_further_members_that_nest_too_deep_are_refused(depth: int) -> None:
    """The text of the further members is itself JSON, which is read up to a depth of 127, the object included."""
    further, names = '{"parameters":' + "[" * depth + "]" * depth + "}", guids(request(Kind.PROVISION))
    if depth > 126:
        with pytest.raises(OsbError) as refused:
            wire.write_named_body(Kind.PROVISION, names, "organization", "space", further)
        assert refused.value.status == Status.NOT_JSON
        return
    body = wire.write_named_body(Kind.PROVISION, names, "organization", "space", further)
    asked = wire.receive_request("PUT", f"/v2/service_instances/{ONE}".encode(), body, len(body)).asked
    assert (asked.kind, asked.service) == (Kind.PROVISION, SERVICE)


# ---- answers


def test_long_details_of_an_answer_are_read() -> None:
    named = {"description": LONG, "error": LONG, "dashboard_url": LONG, "operation": OPERATION}
    metadata = {"labels": {"long": LONG}}
    body = compact({**named, "metadata": metadata, **MEMBERS})
    wanted = wire.Details(LONG, LONG, LONG, OPERATION, compact(metadata).decode())
    assert wire.read_details(body) == wanted
    assert wire.member_text(body, "description") == json.dumps(LONG, ensure_ascii=False)


def test_a_long_description_is_written_as_far_as_it_goes() -> None:
    written = json.loads(wire.write_answer(Answer(500, Body.OTHER_ERROR), None, LONG))
    assert written["description"] == LONG[:1_000]
    assert json.loads(wire.write_answer(Answer(202, Body.EMPTY), OPERATION)) == {"operation": OPERATION}


def test_a_long_object_of_a_binding_is_passed_on() -> None:
    object = compact({"credentials": {"long": LONG}, **MEMBERS})
    binding_wire.check_binding(object)
    assert binding_wire.read_binding(Kind.PROVISION, 201, object) == object
    assert binding_wire.read_fetched(200, object) == object


def test_long_answers_to_an_update_and_a_fetch_are_written() -> None:
    metadata, number = {"labels": {"long": LONG}}, 2**64 - 1
    told = {"dashboard_url": LONG, "metadata": metadata}
    text = compact(metadata).decode()
    assert update_wire.write_success(202, OPERATION, LONG, text) == compact({**told, "operation": OPERATION})
    failure = {"description": LONG[:1_000], "instance_usable": True, "state": "failed", "update_repeatable": False}
    assert update_wire.write_failure(Answer(200, Body.FAILED), LONG, True, False) == compact(failure)
    ids = {"service_id": LONGEST_ID, "plan_id": LONGEST_ID}
    fetched = {**told, **ids, "maintenance_info": {"version": LONG}, "parameters": FURTHER, "x-osb-update": number}
    parameters = compact(FURTHER).decode()
    assert compact(fetched) == update_wire.write_fetched(
        LONGEST_ID, LONGEST_ID, number, parameters=parameters, version=LONG, dashboard_url=LONG, metadata=text
    )


# ---- requests that are written


def test_long_texts_go_into_a_target() -> None:
    prefix, escaped = "/" + "b" * 1_000_000, quote(LONGEST_ID, safe="")
    asked = long_request(Kind.POLL)
    target = wire.write_named_target(asked, LONG_NAMES, LONG, prefix)
    path, _, query = target.partition("?")
    assert path == f"{prefix}/v2/service_instances/{escaped}/last_operation"
    ids = {"service_id": [LONGEST_ID], "plan_id": [LONGEST_ID], "accepts_incomplete": ["true"]}
    assert parse_qs(query) == ids | {"operation": [LONG]}
    target = binding_wire.write_binding_target(asked, asked.id, LONG_BINDING, LONG, prefix)
    path, _, query = target.partition("?")
    assert path == f"{prefix}/v2/service_instances/{escaped}/service_bindings/{escaped}/last_operation"
    assert parse_qs(query) == ids | {"operation": [LONG]}
    target = binding_wire.write_fetch_target(asked, asked.id, LONG_BINDING, prefix)
    path, _, query = target.partition("?")
    assert path == f"{prefix}/v2/service_instances/{escaped}/service_bindings/{escaped}"
    assert parse_qs(query) == {"service_id": [LONGEST_ID], "plan_id": [LONGEST_ID]}


def test_long_members_go_into_a_body() -> None:
    further = compact(FURTHER).decode()
    of_space = {"organization_guid": LONG, "space_guid": LONG}
    ids = {"service_id": LONGEST_ID, "plan_id": LONGEST_ID}
    written = wire.write_named_body(Kind.PROVISION, LONG_NAMES, LONG, LONG, further)
    assert written == compact(FURTHER | ids | of_space)
    assert binding_wire.write_binding_body(Kind.PROVISION, LONG_BINDING, further) == compact(FURTHER | ids)


# ---- requests that are read


def test_a_long_provision_is_read() -> None:
    of_space = {"organization_guid": LONG, "space_guid": LONG}
    parts = {"context": {"long": LONG}, "parameters": {"long": LONG}, "maintenance_info": {"version": LONG}}
    body = compact({**MEMBERS, **parts, **of_space, "service_id": LONGEST_ID, "plan_id": LONGEST_ID})
    target = f"/v2/service_instances/{quote(LONGEST_ID, safe='')}?other={quote(LONG)}".encode()
    received = wire.receive_request("PUT", target, body, len(body))
    assert (received.asked.kind, received.asked.service) == (Kind.PROVISION, Id.of_text(LONGEST_ID))
    assert (received.instance, received.service, received.plan) == (LONGEST_ID, LONGEST_ID, LONGEST_ID)
    assert received.parts.context == received.parts.parameters == compact({"long": LONG}).decode()
    assert status_of(lambda: wire.maintenance_conflict(LONG, body)) is None
    assert status_of(lambda: wire.maintenance_conflict(LONG[1:], body)) == Status.REFUSED_MAINTENANCE


def test_a_long_bind_is_read() -> None:
    parts = {"context": {"long": LONG}, "parameters": {"long": LONG}, "bind_resource": {"app_guid": LONG}}
    body = compact({**MEMBERS, **parts, "service_id": LONGEST_ID, "plan_id": LONGEST_ID})
    escaped = quote(LONGEST_ID, safe="")
    target = f"/v2/service_instances/{escaped}/service_bindings/{escaped}?other={quote(LONG)}".encode()
    received = binding_wire.receive_binding_request("PUT", target, body, len(body))
    assert (received.instance, received.binding) == (LONGEST_ID, LONGEST_ID)
    assert (received.service, received.plan) == (LONGEST_ID, LONGEST_ID)
    assert received.parts.context == received.parts.parameters == compact({"long": LONG}).decode()
    assert received.parts.bind_resource == compact({"app_guid": LONG}).decode()
    assert status_of(lambda: binding_wire.requires_app(True, body)) is None


def test_a_long_update_is_read() -> None:
    parts = {"context": {"long": LONG}, "parameters": {"long": LONG}, "previous_values": {"long": LONG}}
    named = {"service_id": LONGEST_ID, "plan_id": LONGEST_ID, "maintenance_info": {"version": LONG}}
    body = compact({**MEMBERS, **parts, **named, "x-osb-update": 2**64 - 1})
    target = f"/v2/service_instances/{quote(LONGEST_ID, safe='')}?other={quote(LONG)}".encode()
    received = update_wire.receive_update_request("PATCH", target, body, len(body))
    assert (received.instance, received.service, received.plan) == (LONGEST_ID, LONGEST_ID, LONGEST_ID)
    text = compact({"long": LONG}).decode()
    assert received.parts == update_wire.UpdateParts(text, LONG, text, text)
    assert isinstance(received.asked, Update) and received.asked.number == 2**64 - 1
    digests = [hashlib.sha256(value.encode()).digest() for value in (text, LONG)]
    assert [received.asked.change.parameters, received.asked.change.version] == digests


@pytest.mark.parametrize("method, kind", [("GET", Kind.POLL), ("DELETE", Kind.DEPROVISION)])
def test_a_query_of_many_parameters_is_read(method: str, kind: Kind) -> None:
    """Each parameter that isn't named in the standard is passed over: 10,000 of them, and one of 2 MB."""
    more = "".join(f"other{number}=1&" for number in range(10_000)) + f"long={quote(LONG)}&"
    query = f"?{more}service_id={SERVICE}&plan_id={SYNC}&accepts_incomplete=true&operation={quote(LONG)}"
    last = "/last_operation" if kind == Kind.POLL else ""
    target = f"/v2/service_instances/{ONE}{last}{query}".encode()
    received = wire.receive_request(method, target, b"", 0)
    assert (received.asked.kind, received.asked.service, received.asked.plan) == (kind, SERVICE, SYNC)
    assert (received.service, received.plan) == (str(SERVICE), str(SYNC))
    target = f"/v2/service_instances/{ONE}/service_bindings/{TWO}{last}{query}".encode()
    binding = binding_wire.receive_binding_request(method, target, b"", 0)
    assert (binding.instance, binding.binding) == (str(ONE), str(TWO))
    assert (binding.service, binding.plan) == (str(SERVICE), str(SYNC))


# ---- digests and headers


def test_digests_of_long_parameters() -> None:
    parameters = {"long": LONG, "list": list(range(100_000)), **MEMBERS}
    digest = hashlib.sha256(compact(parameters)).digest()
    assert wire.parameters_digest(json.dumps(parameters).encode()) == digest
    assert wire.attributes_digest(json.dumps({**MEMBERS, "parameters": parameters}).encode()) == digest


def test_long_headers() -> None:
    assert wire.basic_auth(authorization(LONG, LONG), LONG, LONG)
    assert not wire.basic_auth(authorization(LONG, LONG + "a"), LONG, LONG)
    object = compact({"user": LONG, **MEMBERS})
    identity = wire.originating_identity("p" * 1_000_000 + " " + base64.b64encode(object).decode())
    assert identity is not None
    assert (identity.platform, identity.object) == ("p" * 1_000_000, object.decode())


# ---- catalogues


def test_a_catalogue_of_2000_plans() -> None:
    ids = [Id.of(str(plan["id"])) for plan in PLANS]
    is_asynchronous = [bool(plan["x-osb-asynchronous"]) for plan in PLANS]
    assert wire.catalogue_plans(CATALOGUE) == [Plan(SERVICE, *offer) for offer in zip(ids, is_asynchronous)]
    wire.check_catalogue(CATALOGUE, Endpoints(bindings=True, fetching_bindings=True))
    assert wire.plan_version(CATALOGUE, SERVICE, ids[-1]) == "1.0.2000"
    document = json.loads(CATALOGUE)
    assert json.loads(wire.served_catalogue(CATALOGUE)) == document | {"x-osb-tombstones": True}
    assert binding_wire.binding_modes(CATALOGUE) == [Plan(SERVICE, plan, False) for plan in ids]
    assert binding_wire.bindings_retrievable(CATALOGUE, SERVICE)
    last = update_wire.PlanUpdates(False, False, None, "1.0.2000", None)
    assert update_wire.plan_updates(CATALOGUE, SERVICE, ids[-1]) == last
    assert not update_wire.numbers_updates(CATALOGUE)
    assert update_wire.update_flags_are_sound(CATALOGUE)
    assert json.loads(update_wire.served_updates(CATALOGUE)) == document | {"x-osb-updates": True}
    plans = SERVICE, ids[-1], ids[-1]
    assert update_wire.update_allowed(CATALOGUE, *plans, "1.0.2000", Mode.ASYNC) == Allowed.ASYNC
    assert update_wire.update_allowed(CATALOGUE, *plans, LONG, Mode.ASYNC) == Allowed.MAINTENANCE_CONFLICT
