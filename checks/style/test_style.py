"""Formatting, lint and types of the whole repository, as `make quick` checks them. checks/go has those of Go."""
from __future__ import annotations

import shutil
import subprocess
from pathlib import Path

import pytest

pytestmark = [pytest.mark.slow, pytest.mark.whole]

TOP = Path(__file__).resolve().parent.parent.parent
NEEDED = {
    "quick-format": ("black", "isort", "shfmt", "gofmt"),
    "quick-lint": ("flake8",),
    "quick-shell": ("shellcheck",),
    "quick-types": ("mypy",),
}
PACKAGES = {"gofmt": "golang-go"}


@pytest.mark.long(20)
@pytest.mark.parametrize("target", NEEDED)
def test_make(target: str, library: Path) -> None:
    missing = [program for program in NEEDED[target] if not shutil.which(program)]
    if missing:
        packages = " ".join(PACKAGES.get(program, program) for program in missing)
        pytest.skip(f"{', '.join(missing)}: not installed (Debian: {packages})")
    ran = subprocess.run(["make", "-s", target], cwd=TOP, stdout=subprocess.PIPE, stderr=subprocess.STDOUT, text=True)
    assert ran.returncode == 0, ran.stdout
