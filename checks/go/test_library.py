"""Which library scripts/go links: the one in LIBOSB_FOLDER, whatever Go has in its cache."""
from __future__ import annotations

import os
import shutil
from pathlib import Path

import pytest
from building import building
from commands import needs
from go.toolchain import TOOLS, TOP, run

pytestmark = pytest.mark.slow


@pytest.mark.long(10)
def test_cache(library: Path, tmp_path: Path) -> None:
    """Go's cache has the path of the library. The package is compiled again over a library elsewhere, although it has
    the same bytes: the first one may be deleted later. So it is over another library at the same place.
    """
    needs(*TOOLS)
    checkout = tmp_path / "checkout"
    shutil.copytree(TOP / "scripts", checkout / "scripts")
    for name in ("go", "include"):
        (checkout / name).symlink_to(TOP / name)
    first, second = (tmp_path / name for name in ("first", "second"))
    for folder in (first, second):
        folder.mkdir()
        shutil.copyfile(library / "libosb.a", folder / "libosb.a")
    compiled = [compiled_over(folder, checkout) for folder in (first, second, first)]
    with open(first / "libosb.a", "ab") as archive:
        archive.write(b"\n")
    compiled.append(compiled_over(first, checkout))
    assert compiled[0] == compiled[2]
    assert len(set(compiled)) == 3


def compiled_over(library: Path, checkout: Path) -> str:
    """The file in Go's cache with the package osb over the library in this folder."""
    line = [str(checkout / "scripts" / "go"), "list", "-export", "-trimpath", "-f", "{{.Export}}", "./osb"]
    with building():
        return run(line, checkout, LIBOSB_FOLDER=str(library), GOFLAGS="-tags=libsqlite3", HOME=os.environ["HOME"])
