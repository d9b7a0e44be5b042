"""A plugin of pytest: it writes down which calls of the library each test makes, to the file that OSB_RECORDED has."""

from __future__ import annotations

import json
import os
from collections.abc import Callable
from pathlib import Path
from typing import Any

import pytest

MADE: dict[str, list[str]] = {}


def pytest_runtest_setup(item: pytest.Function) -> None:
    from osb._header import EXPORTS
    from osb._lib import lib

    made = MADE.setdefault(item.originalname or item.name, [])
    for name, _, _ in EXPORTS:
        function = getattr(lib, name)
        setattr(lib, name, recorded(name, getattr(function, "function", function), made))


def recorded(name: str, function: Callable[..., Any], made: list[str]) -> Callable[..., Any]:
    def call(*taken: Any) -> Any:
        made.append(name)
        return function(*taken)

    setattr(call, "function", function)
    return call


def pytest_sessionfinish() -> None:
    Path(os.environ["OSB_RECORDED"]).write_text(json.dumps({test: sorted({*made}) for test, made in MADE.items()}))
