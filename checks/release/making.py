"""Makes a release."""

from __future__ import annotations

import os
import sys
from pathlib import Path

from commands import printed
from go.toolchain import TOP


def make(to: Path, checkout: Path = TOP) -> None:
    """Makes a release of a checkout in this folder."""
    kept = {name: value for name, value in os.environ.items() if name not in ("LIBOSB_FOLDER", "OSB_REPLAY", "LIBOSB")}
    line = [sys.executable, "-m", "release", "--to", str(to)]
    printed(line, checkout, kept)
