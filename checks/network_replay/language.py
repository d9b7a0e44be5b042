"""Reads the lines of a schedule of many instances and their bindings. No code of the crates is used."""

from __future__ import annotations

import re
from collections.abc import Callable, Iterator
from typing import NamedTuple

LONGEST_LINE = 512
MOST_LINES = 100_000
# Numbers have 64 bits.
NUMBERS = 2**64
GUID = re.compile("[0-9A-Fa-f]{8}(-[0-9A-Fa-f]{4}){3}-[0-9A-Fa-f]{12}")


class LineFault(Exception):
    """The first fault of a schedule: the number of the line, and the fault's name."""

    def __init__(self, line: int, name: str) -> None:
        super().__init__(f"line {line}: {name}")
        self.line, self.name = line, name


class Event(NamedTuple):
    """A line with a meaning. The ids are in lower case; `binding` is empty if the line names an instance."""

    line: int
    words: tuple[str, ...]
    instance: str
    binding: str

    @property
    def verb(self) -> str:
        return self.words[0]

    @property
    def arguments(self) -> tuple[str, ...]:
        """The words behind the life."""
        return self.words[2:]


class _BadWord(Exception):
    """The fault of one word."""


Field = Callable[[str], None]


# ---- the words


def _id(word: str) -> None:
    if not GUID.fullmatch(word):
        raise _BadWord("BadId")


def _binding(word: str) -> None:
    instance, _, binding = word.partition("/")
    _id(instance)
    _id(binding)


def _life(word: str) -> None:
    (_binding if "/" in word else _id)(word)


def _number(word: str) -> None:
    if not re.fullmatch("[0-9]+", word) or int(word) >= NUMBERS:
        raise _BadWord("BadChoice")


def _one_of(*choices: str) -> Field:
    def field(word: str) -> None:
        if word not in choices:
            raise _BadWord("BadChoice")

    return field


_MODE = _one_of("sync", "async", "none")
_YES = _one_of("yes", "no")
_POLL = _one_of("first-poll", "at-once")
_STATUS = _one_of(*map(str, range(500, 600)))
# What follows the first word of a line.
FIELDS: dict[str, tuple[Field, ...]] = {
    "instance": (_id, _id, _id, _MODE, _YES, _POLL, _one_of("both", "platform", "broker", "none")),
    "binding": (_binding, _MODE, _YES, _POLL, _one_of("fetch", "no-fetch")),
    **{verb: (_life,) for verb in ("create", "send", "expire", "retry", "remove", "timeout", "give-up-waiting")},
    **{verb: (_life, _number) for verb in ("arrive", "put-off", "take", "garble")},
    "gateway": (_life, _STATUS),
    "work": (_life, _one_of("absent", "part", "whole")),
    "issue": (_binding, _number),
    "end": (_life, _one_of("done", "before", "after", "refused-400", "refused-422", "unknown")),
    "finish": (_life, _one_of("ok", "fail")),
    "crash": (_life, _one_of("broker", "platform")),
    "fetch": (_binding,),
    "forget": (_binding,),
    "take-fetched": (_binding, _number, _number),
}


# ---- the lines


def _split(schedule: bytes) -> Iterator[bytes]:
    lines = schedule.split(b"\n")
    return iter(lines if lines[-1] else lines[:-1])


def _judge(words: list[str]) -> None:
    fields = FIELDS.get(words[0])
    if fields is None:
        raise _BadWord("UnknownWord")
    if len(words) != 1 + len(fields):
        raise _BadWord("WordCount")
    for field, word in zip(fields, words[1:]):
        field(word)


def _words(number: int, line: bytes) -> list[str]:
    """The words of a line; none if the line has no meaning."""
    if number > MOST_LINES:
        raise _BadWord("TooManyLines")
    if len(line) > LONGEST_LINE:
        raise _BadWord("LineTooLong")
    if not line.isascii():
        raise _BadWord("NotAscii")
    words = [word for word in re.split("[ \t]", line.removesuffix(b"\r").decode()) if word]
    return [] if not words or words[0].startswith("#") else words


def read(schedule: bytes) -> Iterator[Event]:
    """The events of a schedule, up to the first fault, which is raised."""
    for number, line in enumerate(_split(schedule), 1):
        try:
            words = _words(number, line)
            if not words:
                continue
            _judge(words)
        except _BadWord as fault:
            raise LineFault(number, str(fault)) from None
        instance, _, binding = words[1].lower().partition("/")
        yield Event(number, tuple(words), instance, binding)
