"""What story.py and received.py of examples/python print. checks/docs runs the other programs of that folder."""
from __future__ import annotations

import subprocess
import sys
from pathlib import Path

import pytest

EXAMPLES = Path(__file__).resolve().parents[2] / "examples"


@pytest.mark.slow
@pytest.mark.parametrize("name", ["story", "received"])
def test_same_as_in_c(name: str) -> None:
    program = EXAMPLES / "python" / f"{name}.py"
    ran = subprocess.run([sys.executable, program], capture_output=True, text=True, timeout=60)
    told = (EXAMPLES / "c" / f"{name}.out").read_text(encoding="utf-8")
    assert (ran.returncode, ran.stdout, ran.stderr) == (0, told, "")
