"""The texts of what is held and recorded of updates, by Python's json.

The id of a plan has the code of its letter, and each byte of a digest that of its letter, as in library_cases.
"""

from __future__ import annotations

import json
import random
import re
import uuid
from collections.abc import Iterator
from typing import Any, Union

from network.walks import Step
from update.model import OUTS, Holding, Record
from wire.model import GUID, Pairs, Refused, finite
from wire.model import read as read_json

FAULTS = ("NotJson", "NotAnObject", "BadVersion", "BadOuter", "BadMember", "Impossible")

Members = dict[str, Any]
# Members, or the word of a fault.
Reading = Union[Members, str]


# ---- what is written


def compact(value: Any) -> str:
    """JSON with no spaces, and members in the order of their names."""
    return json.dumps(value, separators=(",", ":"), ensure_ascii=False, sort_keys=True)


def settings(word: str) -> Members:
    plan, *digests = (ord(letter) for letter in word)
    parameters, version = (f"{code:02x}" * 32 for code in digests)
    return {"parameters": parameters, "plan": str(uuid.UUID(int=plan)), "version": version}


def holding(held: Holding) -> Members:
    to = settings(held.to) if held.to else None
    return {"number": held.number, "phase": held.phase, "settings": settings(held.settings), "to": to, "version": 1}


def record(recorded: Record) -> Members:
    return {
        "attempt": recorded.attempt,
        "mixed": recorded.mixed,
        "number": recorded.number,
        "out": recorded.out,
        "settings": settings(recorded.settings),
        "state": recorded.state,
        "to": settings(recorded.to) if recorded.to else None,
        "version": 1,
    }


def of_holding(words: str, held: Holding) -> Step:
    return Step(f"update write-holding {words}", compact(holding(held)))


def of_record(words: str, recorded: Record) -> Step:
    return Step(f"update write-record {words}", compact(record(recorded)))


# ---- what is read

DIGEST = re.compile(r"[0-9a-fA-F]{64}\Z")
UNSIGNED = re.compile(r"(0|[1-9][0-9]*)\Z")


def number(text: str) -> int | float:
    """An integer from 0 to 2^64 - 1 that is written as one, or any other number."""
    value = finite(text)
    return int(text) if UNSIGNED.match(text) and int(text) < 2**64 else value


def is_number(value: Any) -> bool:
    return type(value) is int


def settings_in(value: Any) -> Members | None:
    """The settings that an object names, each digit of a digest in lower case."""
    found = dict(value.pairs) if isinstance(value, Pairs) else {}
    if found.keys() != {"parameters", "plan", "version"} or not all(isinstance(part, str) for part in found.values()):
        return None
    if not (DIGEST.match(found["parameters"]) and GUID.match(found["plan"]) and DIGEST.match(found["version"])):
        return None
    return {name: part.lower() for name, part in found.items()}


def with_settings(found: Members, alone: tuple[str, ...], word: str) -> Members | None:
    """The members with the settings as they are read. `to` is null beside the words that stand alone."""
    own, to = settings_in(found["settings"]), settings_in(found["to"])
    if own is None or (found["to"] is not None and to is None) or (to is None) != (word in alone):
        return None
    return {**found, "settings": own, "to": to}


def holding_in(found: Members) -> Reading:
    if found.keys() != {"number", "phase", "settings", "to", "version"}:
        return "BadOuter"
    phase = found["phase"]
    if phase not in ("settled", "pending", "updating", "failed", "mending") or not is_number(found["number"]):
        return "BadMember"
    return with_settings(found, ("settled", "failed"), phase) or "BadMember"


def record_in(found: Members) -> Reading:
    if found.keys() != {"attempt", "mixed", "number", "out", "settings", "state", "to", "version"}:
        return "BadOuter"
    state, out, mixed = found["state"], found["out"], found["mixed"]
    if not isinstance(state, str) or state not in OUTS or out not in (None, "update", "poll", "fetch"):
        return "BadMember"
    if not isinstance(mixed, bool) or not is_number(found["attempt"]) or not is_number(found["number"]):
        return "BadMember"
    if state == "settled" and mixed:
        return "BadMember"
    whole = with_settings(found, ("settled",), state)
    if whole is None:
        return "BadMember"
    return whole if out is None or out in OUTS[state] and found["attempt"] >= 1 else "Impossible"


def read(kind: str, text: str) -> Reading:
    """The members that a text has, or its first fault."""
    try:
        value = read_json(text.encode(), number)
    except Refused:
        return "NotJson"
    if not isinstance(value, Pairs):
        return "NotAnObject"
    found = dict(value.pairs)
    if not is_number(found.get("version")) or found["version"] != 1:
        return "BadVersion"
    return holding_in(found) if kind == "holding" else record_in(found)


def of_text(kind: str, text: str) -> Step:
    """What is written of what is read, or the fault."""
    found = read(kind, text)
    return Step(f"update {kind} {text}", found if isinstance(found, str) else compact(found))


# ---- texts, whole and broken

VALUES = [
    "null",
    "true",
    "false",
    "0",
    "1",
    "2",
    "-0",
    "1.0",
    "1e0",
    str(2**64 - 1),
    str(2**64),
    "1e400",
    "01",
    "NaN",
]
VALUES += ['""', '"settled"', '"failed"', '"pending"', '"updating"', '"polling"', '"poll"', '"fetch"', '"\\u0066ailed"']
VALUES += ['"\\ud800"', "[]", "[1]", "{}", '{"plan":null}', "[" * 130]
NAMES = ["attempt", "mixed", "number", "out", "phase", "settings", "state", "to", "version", "plan", "parameters", "x"]
CHARACTERS = '{}[]",:\\ \t-.+eE019afAFgz\x00é'


def some_plan(chance: random.Random) -> str:
    return str(uuid.UUID(int=chance.choice((0, 2**128 - 1, chance.getrandbits(128)))))


def some_digest(chance: random.Random) -> str:
    digits = f"{chance.getrandbits(256):064x}"
    return chance.choice((digits, digits, digits.upper(), "F" * 64))


def other_settings(chance: random.Random, value: Any) -> Any:
    """Settings with other ids and digests; null as it is."""
    if value is None:
        return None
    return {"parameters": some_digest(chance), "plan": some_plan(chance), "version": some_digest(chance)}


def replaced(chance: random.Random, pairs: list[tuple[str, str]]) -> list[tuple[str, str]]:
    """A member has another value or another name, is missing, or stands twice."""
    at = chance.randrange(len(pairs))
    name, value = pairs[at]
    other = chance.choice(VALUES)
    changed: list[list[tuple[str, str]]] = [
        [(name, other)],
        [(chance.choice(NAMES), value)],
        [],
        [(name, other), (name, value)],
        [(name, value), (name, other)],
        [(name, value), (chance.choice(NAMES), other)],
    ]
    return [*pairs[:at], *chance.choice(changed), *pairs[at + 1 :]]


def written(chance: random.Random, pairs: list[tuple[str, str]]) -> str:
    """An object with blanks between its parts, or with none."""
    blank = chance.choice(("", "", " ", "\t", "  "))
    members = f"{blank},{blank}".join(f"{json.dumps(name)}{blank}:{blank}{value}" for name, value in pairs)
    return f"{blank}{{{blank}{members}{blank}}}{blank}"


def with_breaks(chance: random.Random, text: str) -> str:
    """The text with a character that is deleted, inserted or replaced."""
    at, character = chance.randrange(len(text) + 1), chance.choice(CHARACTERS)
    return text[:at] + chance.choice(("", character)) + text[at + chance.choice((0, 1)) :]


def some_text(chance: random.Random, whole: Members) -> str:
    """A text with the members of `whole` and with other settings, which may be broken in some places; or any value."""
    if chance.random() < 0.03:
        return chance.choice((f"[{compact(whole)}]", *VALUES))
    own, to = other_settings(chance, whole["settings"]), other_settings(chance, whole["to"])
    members = {**whole, "settings": own, "to": to}
    inner = {}
    for name in ("settings", "to"):
        if members[name] is not None:
            pairs = [(part, json.dumps(value)) for part, value in members[name].items()]
            chance.shuffle(pairs)
            inner[name] = written(chance, replaced(chance, pairs) if chance.random() < 0.1 else pairs)
    pairs = [(name, inner.get(name) or json.dumps(value)) for name, value in members.items()]
    chance.shuffle(pairs)
    for _ in range(chance.choice((0, 0, 1, 1, 2))):
        pairs = replaced(chance, pairs) or [("version", "1")]
    text = written(chance, pairs)
    return with_breaks(chance, text) if chance.random() < 0.2 else text


def of_faults() -> Iterator[Step]:
    """A text with each fault, and one with blanks and digits in upper case."""
    held, recorded = holding(Holding("pab", 5, "pending", "qxy")), record(Record("pab", 2, 3, "polling", "qxy"))
    for kind, whole in (("holding", held), ("record", recorded)):
        other = {**whole, "settings": {**whole["settings"], "version": "aB" * 32}}
        texts = [
            "{",
            "[]",
            compact({**whole, "version": 2}),
            compact({**whole, "x": 1}),
            compact({**whole, "to": None}),
        ]
        texts += [compact(whole), json.dumps(other, indent=None, separators=(" , ", " : "))]
        yield from (of_text(kind, text) for text in texts)
    yield of_text("record", compact({**recorded, "out": "fetch"}))
