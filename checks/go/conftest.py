"""Go, staticcheck, and the packages in go/."""
from __future__ import annotations

import shutil
from pathlib import Path

import pytest
from building import SHIPPED, building
from commands import needs
from go.toolchain import SOURCES, TOOLS, TOP, Go, Packages, needs_packages, run


@pytest.fixture(scope="session")
def go(library: Path) -> Go:
    needs(*TOOLS)
    return Go(library)


@pytest.fixture(scope="session")
def staticcheck(tmp_path_factory: pytest.TempPathFactory) -> str:
    """The program staticcheck: the one on the PATH, or else one built from Debian's sources."""
    found = shutil.which("staticcheck")
    if found is not None:
        return found
    needs(*TOOLS)
    if not (SOURCES / "src" / "honnef.co" / "go" / "tools" / "cmd" / "staticcheck").is_dir():
        pytest.skip("staticcheck isn't installed (Debian: golang-honnef-go-tools-dev)")
    built = tmp_path_factory.mktemp("staticcheck") / "staticcheck"
    line = ["go", "build", "-trimpath", "-ldflags=-w", "-tags", SHIPPED, "-o", str(built)]
    environment = {"GOENV": "off", "GO111MODULE": "off", "GOPATH": str(SOURCES), "GOFLAGS": ""}
    with building():
        run([*line, "honnef.co/go/tools/cmd/staticcheck"], TOP, **environment)
    return str(built)


@pytest.fixture(scope="session")
def packages(library: Path) -> Packages:
    needs(*TOOLS)
    needs_packages(tests=True)
    return Packages(library)
