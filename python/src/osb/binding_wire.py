"""Requests and answers of bindings as HTTP and JSON have them (docs/binding.md), as `osb.wire` has those of instances.

These calls of `osb.wire` serve for bindings too: `write_method` (a Fetch has the method of a Poll), `read_answer` for a
Bind, an Unbind and a Poll, `read_details`, `write_answer` and `member_text`. Each call may raise MEMORY.
"""
from __future__ import annotations

import ctypes as c
from dataclasses import dataclass

from osb._catalogues import plans_of
from osb._crossing import id_from, id_to, longest_to, request_to, status_to
from osb._header import CBindingAsked, CBindingReceived
from osb._lib import lib
from osb._texts import texts_of, with_lengths
from osb.enums import Kind, Status
from osb.errors import check, text_of
from osb.ids import Id
from osb.messages import Plan, Request
from osb.wire import Asked, asked_from

__all__ = [
    "BindingAsked",
    "BindingNames",
    "BindingParts",
    "BindingReceived",
    "binding_modes",
    "bindings_retrievable",
    "check_binding",
    "read_binding",
    "read_fetched",
    "receive_binding_request",
    "requires_app",
    "write_binding_body",
    "write_binding_target",
    "write_fetch_target",
]

# ---- The platform's side.


@dataclass(frozen=True)
class BindingNames:
    """The texts of the ids of a binding's request, in the form of `osb.wire.Names`."""

    instance: str
    binding: str
    service: str
    plan: str


def write_binding_target(
    request: Request, instance: Id, names: BindingNames, operation: str | None = None, prefix: str = ""
) -> str:
    """The target of a Bind, an Unbind or a Poll of a binding's last operation, with the texts of its ids, escaped as a
    path and a query need it (sections Binding, Unbinding and Polling Last Operation for Service Bindings). The id of
    the request is the binding's. Each text must be that of the request's id, or of the instance, so no other binding is
    asked for. The rest is as in `osb.wire.write_named_target`. Raises NOT_UTF8, NOT_INSTANCE_TEXT, NOT_BINDING_TEXT,
    NOT_SERVICE_TEXT, NOT_PLAN_TEXT; an instance or a binding named `.` or `..` is no such text either, since HTTP
    clients resolve such a path.
    """
    return _target(request, instance, names, False, operation, prefix)


def write_fetch_target(request: Request, instance: Id, names: BindingNames, prefix: str = "") -> str:
    """The target of the Fetch of a request's binding, as `write_binding_target` writes one (section Fetching a Service
    Binding). The kind of the request and `accepts_incomplete` count for nothing. Raises what `write_binding_target`
    does.
    """
    return _target(request, instance, names, True, None, prefix)


def _target(
    request: Request, instance: Id, names: BindingNames, is_fetch: bool, operation: str | None, prefix: str
) -> str:
    front, given, of, named = with_lengths(prefix), request_to(request), id_to(instance), with_lengths(operation or "")
    texts = with_lengths(names.instance, names.binding, names.service, names.plan)
    told = *texts, is_fetch, operation is not None, *named
    return text_of(lib.osb_write_binding_target, *front, given, of, *told).decode()


def write_binding_body(kind: Kind, names: BindingNames, further: str = "{}") -> bytes:
    """The body of a request of the kind: of a Bind an object of the texts of the service and the plan, and the members
    of `further`, the text of an object, as bind_resource, parameters, context or predecessor_binding_id; else an empty
    text (section Binding). It doesn't compare the texts with a request: `write_binding_target` does. Raises NOT_UTF8,
    NOT_JSON, NOT_AN_OBJECT.
    """
    number, texts = Kind(kind).value, with_lengths(names.service, names.plan, further)
    return text_of(lib.osb_write_binding_body, number, *texts)


def read_binding(kind: Kind, status: int, body: bytes) -> bytes | None:
    """The object of the binding that the response to a request of the kind has: the whole body of a 200 or a 201 to a
    Bind, as it stands (section Binding). None of every other response. What stands in the object isn't judged.
    """
    return _object(False, Kind(kind), status, body)


def read_fetched(status: int, body: bytes) -> bytes | None:
    """The object of the binding that the response to a Fetch has: the whole body of a 200, as it stands (section
    Fetching a Service Binding). None of every other response.
    """
    return _object(True, Kind.POLL, status, body)


def _object(is_fetch: bool, kind: Kind, status: int, body: bytes) -> bytes | None:
    done = lib.osb_read_binding(is_fetch, kind.value, status_to(status), body, len(body))
    if done == Status.NO_BINDING:
        return None
    check(done)
    return body


def bindings_retrievable(document: bytes, service: Id) -> bool:
    """Whether a catalogue's document says by `bindings_retrievable` of a service that its bindings can be fetched
    (section Catalog Management). `Record.answer_binding` asks for it.
    """
    retrievable = c.c_bool(False)
    check(lib.osb_bindings_retrievable(document, len(document), id_to(service), retrievable))
    return retrievable.value


# ---- The broker's side.


@dataclass(frozen=True)
class BindingAsked:
    """What a request asks of a binding. A Bind is a PROVISION, and an Unbind a DEPROVISION."""

    is_fetch: bool
    """Whether it is a Fetch, which asks for the binding itself. It has the kind of a Poll, and may lack its service and
    its plan as a Poll may.
    """
    instance: Id
    asked: Asked
    """The request, under the id of the binding. Unless it is a Fetch, `Asked.request` makes the request for
    `Holding.begin_binding`.
    """


@dataclass(frozen=True)
class BindingParts:
    """The parts of a Bind's body, in the form of `osb.wire.Parts`. Each is None if the body doesn't have it."""

    bind_resource: str | None = None
    parameters: str | None = None
    context: str | None = None
    predecessor_binding_id: str | None = None
    """With its quotes."""


@dataclass(frozen=True)
class BindingReceived:
    """What a broker takes from a request of a binding."""

    asked: BindingAsked
    """What is asked, with the number of each id."""
    instance: str
    """The text of the instance's id, as the path has it, decoded."""
    binding: str
    """The text of the binding's id, as the path has it, decoded."""
    service: str | None
    """The text of the service's id. Only a Poll and a Fetch may lack it."""
    plan: str | None
    """The text of the plan's id. Only a Poll and a Fetch may lack it."""
    parts: BindingParts
    """The parts of a Bind's body. Other requests have none."""


def receive_binding_request(
    method: str, target: bytes, body: bytes, longest_body: int, prefix: str = ""
) -> BindingReceived:
    """Reads what a request asks of a binding, as `osb.wire.receive_request` does of an instance: a Bind, an Unbind, a
    Poll of a binding's last operation, or a Fetch (sections Binding, Unbinding, Polling Last Operation for Service
    Bindings and Fetching a Service Binding). Raises `Refusal`, the first that fits in the order of docs/binding.md,
    NOT_UTF8, and ValueError if `longest_body` is below 0 or above `sys.maxsize`.
    """
    texts = [*with_lengths(prefix), longest_to(longest_body), *with_lengths(method)]
    texts += [target, len(target), body, len(body)]
    asked, lengths = CBindingAsked(), CBindingReceived()
    text = text_of(lib.osb_receive_binding_request, *texts, asked, lengths)
    instance, text = text[: lengths.instance], text[lengths.instance :]
    binding, text = text[: lengths.binding], text[lengths.binding :]
    service, plan, *parts = texts_of(
        text, lengths, "service", "plan", "bind_resource", "parameters", "context", "predecessor_binding_id"
    )
    return BindingReceived(_asked_from(asked), instance.decode(), binding.decode(), service, plan, BindingParts(*parts))


def requires_app(needs_app: bool, body: bytes) -> None:
    """Judges whether the body of a Bind lacks the application that its plan needs: a string `app_guid` that isn't
    empty, of `bind_resource` or of the body itself (sections Binding and Service Broker Errors). Raises `Refusal`
    (REFUSED_APP) if it does.
    """
    check(lib.osb_requires_app(bool(needs_app), body, len(body)))


def check_binding(object: bytes) -> None:
    """Judges the object of a binding, with its credentials, that a broker has stored: as it stands, it is the body of a
    200 or a 201 to a Bind, and of a 200 to a Fetch (sections Binding and Fetching a Service Binding). Raises
    NOT_AN_OBJECT if the text isn't UTF-8, isn't JSON, or is no object.
    """
    check(lib.osb_write_binding(object, len(object)))


def binding_modes(document: bytes) -> list[Plan]:
    """How the plans that a catalogue's document names bind, as `osb.wire.catalogue_plans` reads how they work. A plan
    that isn't bindable is left out. A plan binds asynchronously if its own `x-osb-asynchronous-bindings` is true, or
    else that of its service, which is this project's choice; the service must then be `bindings_retrievable`. A plan's
    own `bindable` counts before that of its service (section Catalog Management). Raises NOT_JSON, NO_SERVICES,
    BAD_SERVICE, NO_PLANS, BAD_PLAN, PLAN_TWICE, NOT_A_BOOLEAN, NOT_RETRIEVABLE.
    """
    return plans_of(lib.osb_binding_modes, document)


def _asked_from(asked: CBindingAsked) -> BindingAsked:
    return BindingAsked(bool(asked.is_fetch), id_from(asked.instance), asked_from(asked.asked))
