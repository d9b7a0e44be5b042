"""Go, which builds the programs that a storm runs."""
from __future__ import annotations

from pathlib import Path

import pytest
from commands import needs
from go.toolchain import TOOLS, Packages, needs_packages


@pytest.fixture(scope="session")
def packages(library: Path) -> Packages:
    """Commands of Go over the packages in go/. What the programs are built with has to be installed."""
    needs(*TOOLS)
    needs_packages()
    return Packages(library)
