"""The committed mutants of the Go code: each is a slip with which a test fails. `make mutants` draws others."""
from __future__ import annotations

from pathlib import Path

import pytest
from go.toolchain import TOP, Packages

EDITS = sorted((TOP / "checks" / "go" / "mutants").glob("*.edit"))


@pytest.mark.slow
@pytest.mark.whole
@pytest.mark.postgres
@pytest.mark.long(60)
def test_mutants(packages: Packages, tmp_path: Path) -> None:
    """All are in one build. Each test passes without a mutant, and fails with each mutant that it is named for. An edit
    whose old text isn't in its function exactly once, or that doesn't compile, is an error.
    """
    assert len(EDITS) >= 55
    assert packages.mutants(tmp_path, EDITS).endswith(f"\n{len(EDITS)} mutants, each noticed\n")
