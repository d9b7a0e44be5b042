"""The package osb of Go as a module: its tests, in ./check with the race detector. test_packages.py looks at its
sources, so `go test` doesn't vet them again.
"""
from __future__ import annotations

import pytest
from building import SHIPPED
from go.toolchain import TOP, Go
from whole import WHOLE

pytestmark = pytest.mark.slow

MODULE = TOP / "go" / "osb"


def test_tests(go: Go) -> None:
    """The tests, and the examples of the package's page."""
    race = ["-race"] if WHOLE else []
    how = (*race, "-tags", SHIPPED, "-count=1", "-vet=off", "-ldflags=-w", "-timeout", "5m")
    go(MODULE, "go", "test", *how, "./...")
