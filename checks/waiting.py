"""Waits in tests."""

from __future__ import annotations

import time
from collections.abc import Callable


def until(is_so: Callable[[], object], seconds: float = 60.0) -> None:
    """Waits until this is so. Fails if it isn't within so many seconds."""
    end = time.monotonic() + seconds
    while not is_so():
        assert time.monotonic() < end, f"it isn't so after {seconds} seconds"
        time.sleep(0.01)
