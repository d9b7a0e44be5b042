"""The programs in Python: their launchers, and the modules below share/osb, from which no other program imports."""

from __future__ import annotations

from pathlib import Path

from release.sources import TOP

NAMES = ("osb-audit", "osb-replay-log")
SHARE = "share/osb"


def launcher(name: str, top: str, replay: str, python: str) -> str:
    """What runs a program. `top`: the folder above share, as the shell has it. `replay`: osb-replay, below `top`."""
    values = {"NAME": name, "MODULE": name.replace("-", "_"), "TOP": top, "REPLAY": replay, "PYTHON": python}
    text = (TOP / "release" / "python-program").read_text(encoding="utf-8")
    for key, value in values.items():
        text = text.replace(f"@{key}@", value)
    return text


def modules() -> dict[str, Path]:
    """The files of all programs, by their names below share/osb: run.py, the programs, and the package osb."""
    programs, package = TOP / "programs", TOP / "python" / "src"
    found = {"run.py": programs / "run.py"}
    for top, folder in (programs, "osb_audit"), (programs, "osb_replay_log"), (package, "osb"):
        found |= {str(path.relative_to(top)): path for path in sorted((top / folder).rglob("*.py"))}
    return found
