"""What a release is made from: its version, its time, and the files that are built first."""

from __future__ import annotations

import os
import re
import shutil
import subprocess
from pathlib import Path
from typing import NamedTuple

TOP = Path(__file__).resolve().parents[1]
SERVICES = ("osb-broker", "osb-platform")
"""The programs that run as services: each has a unit, and is in the image."""
PROGRAMS = (*SERVICES, "osb-storm")
"""The static programs."""
TOOLS = {
    "dpkg-deb": "dpkg",
    "dpkg-shlibdeps": "dpkg-dev",
    "git": "git",
    "readelf": "binutils",
    "strip": "binutils",
    "umoci": "umoci",
}
"""What makes a release besides scripts/go_program.sh, and the Debian packages that have it."""


class Failed(Exception):
    """Why there is no release. The text says what to do."""


class Sources(NamedTuple):
    """What a release is made from. All files are below `built`, or in the checkout."""

    version: str
    epoch: int
    """The time of all files, in seconds since 1970."""
    built: Path
    """The static programs, `pages/` with their manual pages and completions, and the files of `library`."""
    replay: Path
    """The program osb-replay, beside its MANIFEST."""
    library: Path
    """A folder with libosb.so and libosb.a, beside their MANIFEST."""

    @property
    def programs(self) -> list[Path]:
        """The static programs."""
        return [self.built / program for program in PROGRAMS]


def run(*line: str | Path, environment: dict[str, str] | None = None, folder: Path = TOP) -> str:
    """Runs a command, and returns what it printed. Raises Failed if it fails."""
    try:
        ran = subprocess.run(
            [str(word) for word in line],
            cwd=folder,
            env={**os.environ, **(environment or {})},
            stdin=subprocess.DEVNULL,
            capture_output=True,
            text=True,
        )
    except OSError as error:
        raise Failed(f"{line[0]} can't be run: {error}") from error
    if ran.returncode != 0:
        raise Failed(f"{line[0]} ended with status {ran.returncode}: {(ran.stderr or ran.stdout).strip()}")
    return ran.stdout


def check_tools() -> None:
    """Raises Failed unless all tools that make a release are on the PATH."""
    missing = [tool for tool in TOOLS if not shutil.which(tool)]
    if missing:
        packages = " ".join(sorted({TOOLS[tool] for tool in missing}))
        raise Failed(f"to make a release, install {', '.join(missing)}: apt-get install {packages}")


def version() -> str:
    """The version in VERSION. Raises Failed if osb.h has another one."""
    found = (TOP / "VERSION").read_text(encoding="utf-8").strip()
    header = (TOP / "include" / "osb.h").read_text(encoding="utf-8")
    compiled = ".".join(re.findall(r"^#define OSB_VERSION_(?:MAJOR|MINOR|PATCH) (\d+)$", header, re.MULTILINE))
    if found != compiled:
        raise Failed(f"VERSION has {found}, and include/osb.h has {compiled}: change api/table.py, or VERSION")
    return found


def epoch() -> int:
    """SOURCE_DATE_EPOCH, or the time of the last commit."""
    given = os.environ.get("SOURCE_DATE_EPOCH") or run("git", "log", "-1", "--format=%ct").strip()
    if not given.isdigit():
        raise Failed(f"SOURCE_DATE_EPOCH is {given!r}, and no number of seconds since 1970")
    return int(given)


def build(folder: Path) -> Sources:
    """Builds the programs, and finds the library and osb-replay, in this new folder."""
    check_tools()
    folder.mkdir(parents=True)
    found, when = version(), epoch()
    for name in PROGRAMS:
        run(TOP / "release" / "program", name, folder, environment={"SOURCE_DATE_EPOCH": str(when)})
    return Sources(found, when, folder, _proved("replay") / "osb-replay", _proved("library"))


def _proved(target: str) -> Path:
    """The folder with the files of a target of scripts/artifacts.sh, and their MANIFEST. It may have to build them."""
    script = 'top=$PWD who=release; . scripts/artifacts.sh; find_current "$1"; echo "$folder"'
    line = ["bash", "-c", script, "release", target]
    ran = subprocess.run(line, cwd=TOP, stdin=subprocess.DEVNULL, stdout=subprocess.PIPE, text=True)
    if ran.returncode != 0:
        raise Failed(f"the {target} can't be built: see above")
    return Path(ran.stdout.strip())
