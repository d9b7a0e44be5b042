"""The calls of the lines: what a line gives a call, and what the model and the library make of that.

A line has the name of a call and its arguments. A text that begins with `hex:` stands for the bytes that its digits
write.
"""

from __future__ import annotations

from collections.abc import Callable, Mapping
from pathlib import Path
from typing import Any, NamedTuple

from osb import Answer, Body, Endpoints, Id, Kind, OsbError, Plan, Refusal, Request, wire
from osb.enums import Target
from wire import model
from wire.model import Refused
from wire.written import REASONS, answer, conflict, misnamed, named, rejection

TEXT = Path(__file__).resolve().with_name("lines.txt")
LETTERS = {"u": "updating", "b": "bindings", "i": "fetching_instances", "f": "fetching_bindings"}


def data(word: str) -> bytes:
    """The bytes that a text stands for."""
    return bytes.fromhex(word[4:]) if word.startswith("hex:") else word.encode()


def text(word: str) -> str:
    return data(word).decode()


def given(word: str) -> str | None:
    return None if word == "-" else word


ARGUMENTS: dict[str, Callable[[str], Any]] = {
    "word": str,
    "number": int,
    "bytes": data,
    "text": text,
    "optional": lambda word: given(text(word)),
    "prefix": lambda word: given(word) or "",
}


class Call(NamedTuple):
    """The kinds of its arguments, the last of which has all that is left of a line, and what is made of them."""

    arguments: str
    by_model: Callable[..., Any]
    by_library: Callable[..., Any]


def compare(calls: Mapping[str, Call], line: str) -> None:
    """Fails unless the model and the library make the same of a line."""
    name, _, rest = line.partition(" ")
    call, kinds = calls[name], calls[name].arguments.split()
    words = rest.split(" ", len(kinds) - 1)
    given = [ARGUMENTS[kind](word) for kind, word in zip(kinds, words + [""] * len(kinds))]
    assert outcome(call.by_library, given) == outcome(call.by_model, given), line


def outcome(call: Callable[..., Any], given: list[Any]) -> Any:
    """What a call gives, or the name of its status, or the answer to a request that is refused."""
    try:
        return call(*given)
    except Refusal as refusal:
        return refusal.http_status, refusal.body.decode()
    except OsbError as error:
        return error.status.name
    except Refused as refused:
        return refusal_of(refused)


def refusal_of(refused: Refused) -> str | tuple[int, str]:
    """A status, or the answer to a request that is refused with an HTTP status and a description."""
    status, _, description = str(refused).partition(" ")
    return rejection(int(status), description, REASONS[int(status)]) if description else status


def kind_of(word: str) -> Kind:
    return Kind[word.upper()]


def body_of(word: str) -> Body:
    return Body[{**model.ERRORS, "error": "other-error"}.get(word, word).upper().replace("-", "_")]


# ---- requests


def request(prefix: str, longest: int, method: str, target: bytes, body: bytes) -> list[str | None]:
    read = model.received(method, prefix.encode(), target, body, longest)
    parts = [model.member(read.body, name) for name in ("parameters", "context", "maintenance_info")]
    return [read.asked(), *read.ids, read.service, read.plan, *parts, model.others(read.body)]


def received(prefix: str, longest: int, method: str, target: bytes, body: bytes) -> list[str | None]:
    read = wire.receive_request(method, target, body, longest, prefix)
    return [asked(read.asked), read.instance, read.service, read.plan, *vars(read.parts).values()]


def asked(request: wire.Asked) -> str:
    ids = " ".join("-" if id is None else str(id) for id in (request.id, request.service, request.plan))
    return f"{request.kind} {ids} {str(request.accepts_incomplete).lower()}"


def sent(kind: str, ids: tuple[str, ...], names: tuple[str, ...]) -> list[str]:
    """What is sent of the request of these ids with these texts."""
    made = Request(kind_of(kind), True, *map(Id.of_text, ids))
    target = wire.write_named_target(made, wire.Names(*names), "a b")
    body = wire.write_named_body(made.kind, wire.Names(*names), "o", "s").decode()
    return [f"{wire.write_method(made.kind)} {target}", body]


# ---- bodies and answers


def written(status: int, word: str, description: str | None) -> str:
    return wire.write_answer(Answer(status, body_of(word)), None, description).decode()


def read_answer(kind: str, status: int, body: bytes) -> str:
    """What a platform reads of an answer, in the words of the model."""
    found = wire.read_answer(kind_of(kind), status, body)
    return "none" if found is None else f"{found.status} {found.body}"


def identity(value: str) -> tuple[str, str] | None:
    found = wire.originating_identity(value)
    return None if found is None else (found.platform, found.object)


# ---- ids and catalogues

Modes = list[tuple[str, str, str]]


def number(text: str) -> str:
    found = model.number_of(text)
    if found is None:
        raise Refused("NOT_AN_ID")
    return model.shown(found)


def shown(modes: dict[tuple[int, int], str]) -> Modes:
    return [(model.shown(service), model.shown(plan), mode) for (service, plan), mode in sorted(modes.items())]


def plans(found: list[Plan]) -> Modes:
    return [(str(plan.service), str(plan.plan), "async" if plan.is_asynchronous else "sync") for plan in found]


def document(letters: str, of: bytes) -> Modes:
    return shown(model.judge(of, {LETTERS[letter] for letter in letters if letter in LETTERS}))


def checked(letters: str, of: bytes) -> Modes:
    wire.check_catalogue(of, Endpoints(**{LETTERS[letter]: True for letter in letters if letter in LETTERS}))
    return plans(wire.catalogue_plans(of))


def version(service: str, plan: str, of: bytes) -> str | None:
    return model.plan_version(of, model.number_of(service), model.number_of(plan))


CALLS = {
    "answer": Call("number word optional", answer, written),
    "asks": Call(
        "prefix bytes",
        lambda prefix, target: model.asks_for_catalogue(prefix.encode(), target),
        lambda prefix, target: wire.read_target(target, prefix) is Target.CATALOGUE,
    ),
    "conflict": Call("optional bytes", conflict, wire.maintenance_conflict),
    "details": Call("bytes", lambda of: [*model.details(of)], lambda of: [*vars(wire.read_details(of)).values()]),
    "digest": Call("bytes", model.attributes_digest, wire.attributes_digest),
    "document": Call("word bytes", document, checked),
    "id": Call("text", number, lambda text: str(Id.of_text(text))),
    "identity": Call("text", model.identity, identity),
    "member": Call("word bytes", lambda name, of: model.member(of, name), lambda name, of: wire.member_text(of, name)),
    "misnamed": Call("word word word", misnamed, lambda *words: sent("poll", ("i", "s", "p"), words)),
    "named": Call("word text text text", named, lambda kind, *names: sent(kind, names, names)),
    "parameters": Call("bytes", model.parameters_digest, wire.parameters_digest),
    "plans": Call("bytes", lambda of: shown(model.sold(of)), lambda of: plans(wire.catalogue_plans(of))),
    "request": Call("prefix number word bytes bytes", request, received),
    "request-identity": Call("text", model.request_identity, wire.request_identity),
    "served": Call("bytes", model.served, wire.served_catalogue),
    "version": Call(
        "text text bytes",
        version,
        lambda service, plan, of: wire.plan_version(of, Id.of_text(service), Id.of_text(plan)),
    ),
}
