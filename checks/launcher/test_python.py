"""Which Python runs a program: scripts/python.sh."""
from __future__ import annotations

import os
import subprocess
from pathlib import Path

TOP = Path(__file__).resolve().parents[2]


def test_no_module_of_the_current_folder_is_loaded(tmp_path: Path) -> None:
    """Whoever can write to the folder in which an operator starts a program doesn't get the operator's rights."""
    loaded = tmp_path / "loaded"
    (tmp_path / "psycopg2.py").write_text(f"open({str(loaded)!r}, 'w').close()\n")
    script = f". {TOP}/scripts/python.sh; python_with psycopg2; python_with sys; pwd"
    variables = {name: value for name, value in os.environ.items() if not name.startswith("PYTHON")}
    line = ["bash", "-c", script]
    ran = subprocess.run(line, cwd=tmp_path, env=variables, capture_output=True, text=True, timeout=60)
    assert not loaded.exists()
    *_, python, folder = ran.stdout.splitlines()
    assert python.endswith("python3") and folder == str(tmp_path)
