"""Fixtures for the tests of the documents."""
from __future__ import annotations

from pathlib import Path

import pytest
from docs.workdir import Workdir
from ports import free_port


@pytest.fixture
def workdir(tmp_path: Path, library: Path, replay: Path) -> Workdir:
    """A copy of the repository, in which a reader's commands are run."""
    return Workdir(tmp_path, library, replay)


@pytest.fixture
def port() -> int:
    """A port at which nothing listens."""
    return free_port()


other_port = third_port = port
