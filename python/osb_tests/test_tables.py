"""The status of an answer, the library's version, and libraries that can't be loaded."""
from __future__ import annotations

import os
import subprocess
import sys

import pytest
from osb import Answer, Body, __version__, version


def test_status() -> None:
    with pytest.raises(ValueError):
        Answer(2**16 + 200, Body.EMPTY)


def test_version() -> None:
    assert (version() // 100, __version__) == (3, "0.3.0")


@pytest.mark.parametrize(
    ("name", "said"), [("/nowhere/libosb.so", "libosb isn't found"), ("libc.so.6", "of another version")]
)
def test_no_library(name: str, said: str) -> None:
    """What can't be loaded, or is another library, is an ImportError that says so."""
    line, environment = [sys.executable, "-c", "import osb"], {**os.environ, "LIBOSB": name}
    ran = subprocess.run(line, env=environment, text=True, capture_output=True)
    assert ran.returncode == 1
    last = ran.stderr.splitlines()[-1]
    assert "ImportError" in last and said in last
