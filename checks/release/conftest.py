"""The files of a release, which are made once for all tests."""

from __future__ import annotations

import fcntl
import os
import subprocess
from pathlib import Path

import pytest
from commands import PACKAGES, needs
from go.toolchain import TOOLS, TOP, needs_packages

from release import sources
from release.making import make

MODULES = ("setuptools", "wheel")


def pytest_itemcollected(item: pytest.Item) -> None:
    """A release is built only in the whole gate: that takes two minutes of the processors."""
    if "dist" in getattr(item, "fixturenames", ()):
        item.add_marker(pytest.mark.whole)


@pytest.fixture(scope="session")
def dist(tmp_path_factory: pytest.TempPathFactory) -> Path:
    """The folder with the files of a release. The first process of pytest that needs it makes it."""
    needs(*TOOLS, *sources.TOOLS, packages={**PACKAGES, **sources.TOOLS})
    needs_packages()
    for module in MODULES:
        found = subprocess.run(["/usr/bin/python3", "-c", f"import {module}"], capture_output=True, cwd="/")
        if found.returncode != 0:
            pytest.skip(f"{module} isn't installed (Debian: python3-{module})")
    top = tmp_path_factory.getbasetemp()
    if "PYTEST_XDIST_WORKER" in os.environ:
        top = top.parent  # which all processes of this run share. Without others, all runs share it
    folder = top / "dist"
    with open(top / "dist.lock", "w") as lock:
        fcntl.flock(lock, fcntl.LOCK_EX)
        if not folder.exists():
            make(folder)
    return folder


@pytest.fixture(scope="session")
def version() -> str:
    """The version of the release."""
    return (TOP / "VERSION").read_text(encoding="utf-8").strip()
