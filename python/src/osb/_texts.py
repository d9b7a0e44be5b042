"""Texts that cross: what a call writes into a buffer, and strings as bytes."""
from __future__ import annotations

import ctypes as c
from typing import Any, Callable, Iterator

from osb.enums import Status

# What most texts go into at once: a holding's has 434 bytes at most.
_FIRST = 1024


def written(call: Callable[..., int], *given: Any) -> tuple[int, bytes]:
    """The status of a call of the library that writes a text behind what it is given, and that text. It is called again
    where the buffer was too short.
    """
    buffer, needed = c.create_string_buffer(_FIRST), c.c_size_t(0)
    while (status := call(*given, buffer, len(buffer), needed)) == Status.TOO_SMALL:
        buffer = c.create_string_buffer(needed.value)
    return status, buffer.raw[: needed.value]


def texts_of(text: bytes, lengths: c.Structure, *names: str) -> Iterator[str | None]:
    """The texts that a call wrote one after the other, with these names in the struct of their lengths; None where one
    isn't there.
    """
    start = 0
    for name in names:
        end = start + getattr(lengths, name)
        yield text[start:end].decode() if getattr(lengths, f"has_{name}") else None
        start = end


def with_lengths(*texts: str) -> list[bytes | int]:
    """The bytes of each text, and behind them how many they are."""
    crossing: list[bytes | int] = []
    for text in map(utf8, texts):
        crossing += [text, len(text)]
    return crossing


def utf8(text: str) -> bytes:
    """The bytes of a string. A lone surrogate comes out as bytes that the library refuses as not UTF-8."""
    return text.encode("utf-8", "surrogatepass")
