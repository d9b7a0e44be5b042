"""The calls of the lines of bindings: what the model and the library make of each line (wire.cases)."""

from __future__ import annotations

import urllib.parse
from pathlib import Path

from binding_wire import model
from osb import Id, Request, binding_wire, wire
from wire.cases import Call, asked, kind_of, plans, read_answer, shown
from wire.model import Refused, answer, guid, member
from wire.written import METHODS, form, rejection, spaceless

TEXT = Path(__file__).resolve().with_name("lines.txt")
APP = "This Service supports generation of credentials through binding an application only."


def request(prefix: str, longest: int, method: str, target: bytes, body: bytes) -> list[str | None]:
    read = model.received(method, prefix.encode(), target, body, longest)
    return [read.asked(), *read.ids, read.service, read.plan, *(member(read.body, name) for name in model.PARTS)]


def received(prefix: str, longest: int, method: str, target: bytes, body: bytes) -> list[str | None]:
    read = binding_wire.receive_binding_request(method, target, body, longest, prefix)
    kind, _, others = asked(read.asked.asked).partition(" ")
    if read.asked.is_fetch:
        kind, others = "fetch", others.rpartition(" ")[0] + " -"
    texts = read.instance, read.binding, read.service, read.plan
    return [f"{kind} {read.asked.instance} {others}", *texts, *vars(read.parts).values()]


def named(kind: str, instance: str, binding: str, service: str, plan: str) -> list[str]:
    """What is sent of these ids, and then the Fetch."""
    for name, id in (("INSTANCE", instance), ("BINDING", binding)):
        if id in (".", ".."):
            raise Refused(f"NOT_{name}_TEXT")
    quoted = [urllib.parse.quote(id, safe="") for id in (instance, binding)]
    target = f"/v2/service_instances/{quoted[0]}/service_bindings/{quoted[1]}"
    ids = [("service_id", service), ("plan_id", plan)]
    pairs = [("accepts_incomplete", "true"), ("operation", "a b")]
    end = "/last_operation" if kind == "poll" else ""
    body = spaceless({"plan_id": plan, "service_id": service}) if kind == "provision" else ""
    query = form(pairs if kind == "provision" else ids + pairs)
    return [f"{METHODS[kind]} {target}{end}?{query}", body, f"GET {target}?{form(ids)}"]


def sent(kind: str, *names: str) -> list[str]:
    instance, binding, service, plan = map(Id.of_text, names)
    made, texts = Request(kind_of(kind), True, binding, service, plan), binding_wire.BindingNames(*names)
    target = binding_wire.write_binding_target(made, instance, texts, "a b")
    fetched = binding_wire.write_fetch_target(made, instance, texts)
    body = binding_wire.write_binding_body(made.kind, texts).decode()
    return [f"{wire.write_method(made.kind)} {target}", body, f"GET {fetched}"]


def lacking(body: bytes) -> tuple[int, str] | None:
    return rejection(422, APP, "RequiresApp") if model.lacks_app(body) else None


def app(body: bytes) -> None:
    binding_wire.requires_app(False, body)
    binding_wire.requires_app(True, body)


def stored(body: bytes) -> None:
    if model.object_of(body) is None:
        raise Refused("NOT_AN_OBJECT")


def mode(modes: list[tuple[str, str, str]], service: str, plan: str) -> list[str]:
    """The mode of a plan, if it is among these."""
    return [retrievable for *pair, retrievable in modes if pair == [guid(service), guid(plan)]]


CALLS: dict[str, Call] = {
    "answer": Call(
        "word number bytes",
        lambda *of: [answer(*of), model.bound(*of)],
        lambda kind, *of: [read_answer(kind, *of), binding_wire.read_binding(kind_of(kind), *of)],
    ),
    "app": Call("bytes", lacking, app),
    "fetched": Call("number bytes", model.fetched, binding_wire.read_fetched),
    "modes": Call(
        "word word bytes",
        lambda service, plan, of: mode(shown(model.modes(of)), service, plan),
        lambda service, plan, of: mode(plans(binding_wire.binding_modes(of)), service, plan),
    ),
    "named": Call("word text text text text", named, sent),
    "request": Call("prefix number word bytes bytes", request, received),
    "retrievable": Call(
        "word bytes", model.retrievable, lambda service, of: binding_wire.bindings_retrievable(of, Id.of_text(service))
    ),
    "stored": Call("bytes", stored, binding_wire.check_binding),
}
