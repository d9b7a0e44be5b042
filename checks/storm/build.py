"""The programs that a storm runs: built once, with their crash points and what the storm puts into them."""
from __future__ import annotations

import subprocess
from pathlib import Path

from building import SHIPPED, building

TOP = Path(__file__).resolve().parents[2]
_HOW = ("-trimpath", "-ldflags=-w", "-tags", f"{SHIPPED} crashpoints storm")


def build(name: str, folder: Path) -> Path:
    """Builds the program of this name into a folder, and returns its path. If that can't be done, the storm ends."""
    program = folder.resolve() / name
    line = [str(TOP / "scripts" / "go"), "build", *_HOW, "-o", str(program), f"./cmd/{name}"]
    with building():
        done = subprocess.run(
            line, stdin=subprocess.DEVNULL, stdout=subprocess.PIPE, stderr=subprocess.STDOUT, text=True
        )
    if done.returncode != 0:
        raise SystemExit(f"storm: {name} can't be built: {done.stdout}")
    return program
