"""Ids of instances, services and plans, by their numbers."""
from __future__ import annotations

import ctypes as c
import functools
import secrets
from dataclasses import dataclass

from osb._header import CId
from osb._lib import lib
from osb._texts import utf8
from osb.errors import check

_LONGS = range(2**64)


@dataclass(frozen=True, order=True)
class Id:
    """The number of an id, which has 128 bits, in two halves: as a GUID it has its first 16 digits in `high`.

    The id itself is any text of 1 to 255 bytes of UTF-8, and `of_text` has its number. `str` writes the number as a
    GUID in lower case, which is the id's text only if that is such a GUID.
    """

    high: int
    low: int

    def __post_init__(self) -> None:
        if self.high not in _LONGS or self.low not in _LONGS:
            raise ValueError("each half of an id is a number from 0 to 2^64 - 1")

    @classmethod
    def of_text(cls, text: str) -> Id:
        """The id that a text names, as a request or a catalogue has it. A GUID in lower case is its own number. Any
        other text, among them a GUID with a digit in upper case, has the first 128 bits of its SHA-256. The standard
        compares ids byte by byte; the numbers and the greatest length are this project's choice. Raises NOT_UTF8, and
        NOT_AN_ID for an empty text and for one of more than 255 bytes.
        """
        read, given = CId(), utf8(text)
        check(lib.osb_id_of_text(given, len(given), read))
        return cls(read.high, read.low)

    @classmethod
    def of(cls, text: str) -> Id:
        """Reads a GUID in either case: the number that its digits write. Raises `OsbError` (NOT_AN_ID) for every other
        text. For the id in a request or a catalogue call `of_text`.
        """
        read, given = CId(), utf8(text)
        check(lib.osb_id_from_text(given, len(given), read))
        return cls(read.high, read.low)

    @classmethod
    def new(cls) -> Id:
        """An id that nobody has used: 122 bits of it are random, as in a GUID of version 4."""
        high, low = secrets.randbits(64), secrets.randbits(64)
        return cls(high & ~0xF000 | 0x4000, low & ~(0b11 << 62) | 0b10 << 62)

    def __str__(self) -> str:
        return _text(self.high, self.low)

    def __repr__(self) -> str:
        return f"Id.of({str(self)!r})"


@functools.lru_cache(1024)
def _text(high: int, low: int) -> str:
    """The text of an id, which is asked for many times while one request is handled."""
    text = c.create_string_buffer(36)
    lib.osb_id_to_text(CId(high, low), text)
    return text.raw.decode()
