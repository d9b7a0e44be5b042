"""What a platform and a broker write, by Python's json and urllib: queries, bodies and answers.

The rules are those of docs/wire.md.
"""

from __future__ import annotations

import json
import urllib.parse

from wire import model
from wire.model import Refused

REASONS = {
    400: "BadRequest",
    404: "NotFound",
    405: "MethodNotAllowed",
    409: "Conflict",
    410: "Gone",
    412: "PreconditionFailed",
    413: "ContentTooLarge",
    422: "UnprocessableEntity",
    500: "InternalServerError",
    503: "ServiceUnavailable",
}
# What a person reads if the broker says no more.
USUAL = {
    "AsyncRequired": "This plan needs a client that takes asynchronous operations.",
    "ConcurrencyError": "Another operation on this instance is in progress.",
    "InternalServerError": "The operation failed.",
    "ServiceUnavailable": "The broker can't answer now.",
}
STATES = {"in-progress": "in progress", "succeeded": "succeeded", "failed": "failed"}
METHODS = {"provision": "PUT", "deprovision": "DELETE", "poll": "GET"}
LONGEST_DESCRIPTION = 1000


def rejection(status: int, description: str, error: str) -> tuple[int, str]:
    return status, spaceless({"description": description, "error": error})


def spaceless(value: object) -> str:
    return json.dumps(value, ensure_ascii=False, separators=(",", ":"))


# ---- requests


def form(pairs: list[tuple[str, str]]) -> str:
    """A query: a space as `+`, and all but ASCII letters, digits and `*-._` as escapes."""
    return "&".join(f"{name}={urllib.parse.quote_plus(value, safe='*').replace('~', '%7E')}" for name, value in pairs)


def named(kind: str, instance: str, service: str, plan: str) -> list[str]:
    """What is sent of these ids."""
    if instance in (".", ".."):
        raise Refused("NOT_INSTANCE_TEXT")
    target = "/v2/service_instances/" + urllib.parse.quote(instance, safe="")
    pairs = [("accepts_incomplete", "true"), ("operation", "a b")]
    body = ""
    if kind == "provision":
        body = spaceless({"organization_guid": "o", "plan_id": plan, "service_id": service, "space_guid": "s"})
    else:
        pairs = [("service_id", service), ("plan_id", plan), *pairs]
    if kind == "poll":
        target += "/last_operation"
    return [f"{METHODS[kind]} {target}?{form(pairs)}", body]


def misnamed(*words: str) -> list[str]:
    for word, own, what in zip(words, "isp", ("INSTANCE", "SERVICE", "PLAN")):
        if word != own:
            raise Refused(f"NOT_{what}_TEXT")
    return named("poll", *words)


# ---- answers


def conflict(version: str | None, body: bytes) -> tuple[int, str] | None:
    if not model.conflicts(version, body):
        return None
    return rejection(422, "The plan has another maintenance_info.version.", "MaintenanceInfoConflict")


def answer(status: int, word: str, description: str | None) -> str:
    cut = None if description is None else description[:LONGEST_DESCRIPTION]
    if word in ("malformed", "empty"):
        return "" if word == "malformed" else "{}"
    if word in STATES:
        why = {"description": cut} if word == "failed" and cut is not None else {}
        return spaceless({**why, "state": STATES[word]})
    error = REASONS.get(status, "Refused") if word == "error" else word
    usual = USUAL.get(error, "The request was refused.")
    return spaceless({"description": usual if cut is None else cut, "error": error})
