"""The program osb-storm."""
from __future__ import annotations

from collections.abc import Iterator
from pathlib import Path

import pytest
from audit.running import serving
from ports import free_address


@pytest.fixture
def served(broker: Path, tmp_path: Path) -> Iterator[str]:
    """The URL of osb-broker. Its state is in the folder `state`, and its journal in `journals/broker`. Afterwards no
    instance is left.
    """
    at = free_address()
    with serving(broker, tmp_path, at, "--sweep-seconds", "0.1", journals="journals/broker"):
        yield f"http://{at}"
    sold = [path.name for path in (tmp_path / "state" / "instances").iterdir() if not path.name.startswith(".")]
    assert sold == []
