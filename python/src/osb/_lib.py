"""The library, loaded once, and its exports with the types of `_header.py`.

A call keeps the interpreter's lock, since the calls are short.
"""
from __future__ import annotations

import ctypes as c
import os

from osb._header import EXPORTS, VERSION


def _load() -> c.PyDLL:
    beside = os.path.join(os.path.dirname(__file__), "libosb.so.0")  # a wheel has the library inside
    name = os.environ.get("LIBOSB", beside if os.path.exists(beside) else "libosb.so.0")
    try:
        library = c.PyDLL(name)
    except OSError as error:
        raise ImportError(f"libosb isn't found: {error} (LIBOSB names its file)") from error
    try:
        for export, given, taken in EXPORTS:
            function = getattr(library, export)
            function.restype, function.argtypes = given, taken
    except AttributeError as error:
        raise ImportError(f"{name} is the library of another version: {error}") from error
    found = library.osb_version()
    if found // 100 != VERSION // 100:
        raise ImportError(f"{name} has the version {found}, and this package is for {VERSION}")
    return library


lib = _load()


def version() -> int:
    """The version of the library, as OSB_VERSION of the header has it."""
    return int(lib.osb_version())
