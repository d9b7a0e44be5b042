"""The lines `update-wire ..` of library_cases, and what the model says of each.

    PYTHONPATH=checks python3 -m update_wire.cases

prints these lines of the crate's `stdout`. `crates/library_cases/src/update_wire.rt` says what the arguments of each
call are, and `update_wire_words.rt` how a text stands for a word.
"""

from __future__ import annotations

import re
import urllib.parse
from collections.abc import Callable
from pathlib import Path
from typing import Any, NamedTuple

from network.walks import Step
from update_wire import model
from wire.model import Refused, number_of, shown

FOLDER = Path(__file__).resolve().parents[2] / "crates" / "library_cases"
FRONT = "update-wire "
FLAGS = {"true": True, "false": False, "-": None}


# ---- words


def word(text: str | bytes | None) -> str:
    """A text as a word."""
    if text is None:
        return "-"
    data = text.encode() if isinstance(text, str) else text
    if data in (b"", b"-"):
        return "%2D" if data else "''"
    return re.sub(rb"[\x00-\x20%'\x7f-\xff]", lambda found: b"%%%02X" % found[0][0], data).decode()


def data_of(words: str) -> bytes:
    return b"" if words == "''" else urllib.parse.unquote_to_bytes(words)


def text_of(words: str) -> str:
    return data_of(words).decode()


ARGUMENTS: dict[str, Callable[[str], Any]] = {
    "accepts": lambda words: {"accepts": True, "refuses": False}[words],
    "bytes": data_of,
    "flag": FLAGS.__getitem__,
    "given": lambda words: None if words == "-" else text_of(words),
    "number": int,
    "prefix": data_of,
    "text": text_of,
    "word": str,
}


# ---- what is printed


def flag(says: bool | None) -> str:
    return next(words for words, value in FLAGS.items() if value is says)


def digest(value: bytes | None) -> str:
    return "-" if value is None else value.hex()


def change(asked: model.Change) -> str:
    ids = f"{shown(asked.service)} {shown(asked.plan)}"
    accepts = "accepts" if asked.accepts else "refuses"
    return f"{ids} {digest(asked.parameters)} {digest(asked.version)} {asked.number} {accepts}"


def texts(*given: str | None) -> str:
    return " ".join(map(word, given))


def request(method: str, longest: int, prefix: bytes, target: bytes, body: bytes) -> str:
    try:
        read = model.received(method, prefix, target, body, longest)
    except Refused as why:
        status, told = model.refused(why)
        return f"{status} {word(told)}"
    ids = [None if text is None else number_of(text) for text in (read.service, read.plan)]
    asked = f"update {shown(read.id)} {change(read.change)}" if read.change else ""
    asked = asked or " ".join(("fetch", *map(shown, (read.id, *ids))))
    return f"{asked} {texts(read.instance, read.service, read.plan, *read.parts)}"


def update(*arguments: Any) -> str:
    try:
        sent = model.update(*arguments)
    except Refused as why:
        return str(why)
    return f"PATCH {texts(sent.target, sent.body)} {shown(sent.id)} {change(sent.change)}"


def fetch(*arguments: str) -> str:
    try:
        return f"GET {word(model.fetch(*arguments))}"
    except Refused as why:
        return str(why)


def fetched(status: int, body: bytes) -> str:
    read = model.fetched(status, body)
    if read.reported is None:
        return f"- {texts(*read.texts)}"
    plan, parameters, version, number = read.reported
    return f"{shown(plan)} {digest(parameters)} {digest(version)} {number} {texts(*read.texts)}"


def plan(service: str, of: str, document: bytes) -> str:
    says = model.plan(service, of, document)
    if says is None:
        return "-"
    flags = " ".join(map(flag, (says.updateable, says.retrievable, says.asynchronous)))
    return f"{flags} {word(says.version)} {'-' if says.longest_poll is None else says.longest_poll}"


class Call(NamedTuple):
    """The kinds of its arguments, and what is printed of it."""

    arguments: str
    told: Callable[..., str]


CALLS = {
    "allowed": Call("text text text given word bytes", model.allowed),
    "answer": Call("number bytes", model.answer),
    "digest": Call("text", lambda version: digest(model.version_digest(version))),
    "failure": Call("number word given flag flag", lambda *of: word(model.failure(*of))),
    "fetch": Call("text text text text", fetch),
    "fetched": Call("number bytes", fetched),
    "numbers": Call("bytes", lambda of: flag(model.numbers(of))),
    "parts": Call("number bytes", lambda *of: texts(*model.parts(*of))),
    "plan": Call("text text bytes", plan),
    "request": Call("word number prefix bytes bytes", request),
    "served": Call("bytes", lambda of: word(model.served(of))),
    "sound": Call("bytes", lambda of: flag(model.sound(of))),
    "success": Call("number given given given", lambda *of: word(model.success(*of))),
    "update": Call("text accepts number text text given given given given", update),
    "write-fetched": Call("number text text given given given given", lambda *of: word(model.written_fetched(*of))),
}


def call_of(line: str) -> str:
    return line.split(" ", 2)[1]


def of_line(line: str) -> Step:
    """A line, and what the model says of it."""
    name, *words = line.removeprefix(FRONT).split(" ")
    call = CALLS[name]
    given = [ARGUMENTS[kind](argument) for kind, argument in zip(call.arguments.split(), words)]
    return Step(line, call.told(*given))


def lines_of(name: str) -> list[str]:
    """The lines of updates on the wire in a file of the crate."""
    return [line for line in (FOLDER / name).read_text(encoding="utf-8").splitlines() if line.startswith(FRONT)]


def told(step: Step) -> str:
    return f"{step.line}  {step.wanted}"


if __name__ == "__main__":
    for asked in lines_of("stdin"):
        print(told(of_line(asked)))
