"""What api/cases.txt leaves of the calls of the wire: what Python's types add, values without end, and round trips."""
from __future__ import annotations

import json
from dataclasses import replace

import pytest
from osb import Id, Kind, Plan, Status, binding_wire, wire
from osb_tests.support import PASSWORD, SERVICE, USER, guids, hashed, request, status_of

NAMES = wire.Names("a database/é", "postgres", "postgres, small")


def test_status() -> None:
    """A status that C's uint16_t can't have isn't taken for another one."""
    with pytest.raises(ValueError):
        wire.read_answer(Kind.PROVISION, 2**16 + 201, b"{}")
    with pytest.raises(ValueError):
        binding_wire.read_fetched(2**16, b"{}")


@pytest.mark.parametrize("wrong", [-1, -(2**64), 2**63, 2**64, 2**70])
def test_wrong_longest_body(wrong: int) -> None:
    """A number that C's size_t can't have isn't taken for another one, such as -1 for no limit."""
    with pytest.raises(ValueError):
        wire.receive_request("PUT", b"/v2/service_instances/i", b" " * 9, wrong)
    with pytest.raises(ValueError):
        binding_wire.receive_binding_request("PUT", b"/v2/service_instances/i", b" " * 9, wrong)


def test_longest_body() -> None:
    target, body = b"/v2/service_instances/i", b" " * 9
    assert status_of(lambda: wire.receive_request("PUT", target, body, 8)) == Status.REFUSED_LENGTH


def test_no_header() -> None:
    assert not wire.basic_auth(None, USER, PASSWORD)


@pytest.mark.parametrize("accepts", [False, True])
@pytest.mark.parametrize("kind", Kind)
def test_what_is_written_is_received(kind: Kind, accepts: bool) -> None:
    plain = request(kind, accepts=accepts)
    numbers = {name: hashed(getattr(NAMES, of)) for name, of in (("id", "instance"), ("plan", "plan"))}
    others = replace(plain, service=hashed(NAMES.service), **numbers)
    for asked, names in ((plain, guids(plain)), (others, NAMES)):
        target = wire.write_named_target(asked, names, None, "/a").encode()
        body = wire.write_named_body(kind, names, "an organization", "a space")
        received = wire.receive_request(wire.write_method(kind), target, body, 1000, "/a")
        assert (received.asked.request(None), received.instance) == (asked, names.instance)


@pytest.mark.parametrize("kind", Kind)
def test_what_is_written_of_a_binding_is_received(kind: Kind) -> None:
    names = binding_wire.BindingNames("a database/é", "a binding/ü", "postgres", "postgres, small")
    instance, binding, service, plan = map(hashed, vars(names).values())
    asked = replace(request(kind), id=binding, service=service, plan=plan)
    target = binding_wire.write_binding_target(asked, instance, names, None, "/a").encode()
    body = binding_wire.write_binding_body(kind, names)
    received = binding_wire.receive_binding_request(wire.write_method(kind), target, body, 1000, "/a")
    texts = (received.instance, received.binding, received.service or "", received.plan or "")
    assert binding_wire.BindingNames(*texts) == names
    assert (received.asked.is_fetch, received.asked.instance) == (False, instance)
    assert received.asked.asked.request(None) == asked


def test_more_plans_than_the_first_list_has_places_for() -> None:
    many = {"services": [{"id": str(SERVICE), "plans": [{"id": str(Id(0, n))} for n in range(100)]}]}
    assert wire.catalogue_plans(json.dumps(many).encode()) == [Plan(SERVICE, Id(0, n), False) for n in range(100)]
    plans = [{"id": f"plan {number}"} for number in range(100)]
    sold = {"services": [{"id": "s", "bindable": True, "plans": plans}]}
    assert len(binding_wire.binding_modes(json.dumps(sold).encode())) == 100
