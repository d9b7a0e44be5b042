"""A copy of the repository, in which a reader's commands are run without anything of this shell's environment but the
place of Go's cache.
"""
from __future__ import annotations

import contextlib
import os
import re
import shutil
import signal
import subprocess
from pathlib import Path

from docs.pages import TOP

_SECONDS = 240.0

# What this shell has of Python, Go, pkg-config, PostgreSQL and the library, and a reader's hasn't.
# OSB_BROKER, OSB_PLATFORM and OSB_STORM stay: all tests that use the fixtures of the programs share one build.
_OWN = re.compile(
    "LIBOSB|OSB_(?!BROKER$|PLATFORM$|STORM$)|PYTHON|PKG_CONFIG|LD_|CGO_|GO[A-Z]|PG|PIP_|CC$|XDG_|DESTDIR|BROKER_|PORT$"
)

# Where Go's cache is. scripts/go sees to it that no build takes what was built with another library.
_CACHE = ("GOCACHE", "XDG_CACHE_HOME")

# The copy has no crates. Instead of looking for what fits their sources, it takes what the tests were given.
_GIVEN = """
find_current() {{
    folder='{folder}'
}}
"""

# Nothing is done as root. A library that is installed below DESTDIR has to be found there by ldconfig.
_STAND_INS = {
    "sudo": """#!/bin/sh\n[ "$1" = apt-get ] || exec "$@"\n""",
    "ldconfig": """#!/bin/sh\n/sbin/ldconfig -v -n -N "$DESTDIR/usr/local/lib" | grep 'libosb.so.0 -> libosb.so.0'\n""",
}


class Workdir:
    """The copy is the folder `top`. The folder above it, `folder`, has nothing else at first but the stand-ins."""

    def __init__(self, folder: Path, library: Path, replay: Path) -> None:
        self.folder, self.top = folder, folder / "pippinterm"
        left_out = {".git", "build", "out", "crates", "prebuilt"}
        shutil.copytree(TOP, self.top, ignore=lambda at, names: left_out & set(names) if Path(at) == TOP else [])
        given = folder / "given"
        given.mkdir()
        for name, path in (
            ("osb-replay", replay),
            ("libosb.so", library / "libosb.so"),
            ("libosb.a", library / "libosb.a"),
        ):
            (given / name).symlink_to(path)
        with open(self.top / "scripts" / "artifacts.sh", "a", encoding="utf-8") as script:
            script.write(_GIVEN.format(folder=given))
        (folder / "bin").mkdir()
        for name, text in _STAND_INS.items():
            _put(folder / "bin" / name, text)
        self._environment: dict[str, str] = {
            **{name: value for name, value in os.environ.items() if name in _CACHE or not _OWN.match(name)},
            "PATH": f"{folder}/bin:{os.environ['PATH']}",
            "DESTDIR": f"{folder}/installed",
            "XDG_STATE_HOME": f"{folder}/state",
            "PYTHONDONTWRITEBYTECODE": "1",
            "GOENV": "off",
            "GOPROXY": "off",
            "GOFLAGS": "-modcacherw",
            "GOPATH": f"{folder}/go/path",
        }

    def run(self, script: str, **given: str) -> str:
        """Run the commands in the copy, end whatever they started, and return what they wrote on standard output."""
        out, err = self.folder / "out", self.folder / "err"
        with open(out, "wb") as written, open(err, "wb") as reported:
            shell = subprocess.Popen(
                ["bash", "-e", "-c", script],
                cwd=self.top,
                env={**self._environment, **given},
                stdin=subprocess.DEVNULL,
                stdout=written,
                stderr=reported,
                start_new_session=True,
            )
            try:
                status = shell.wait(_SECONDS)
            except subprocess.TimeoutExpired:
                raise AssertionError(f"it doesn't end: {_end_of(out)}{_end_of(err)}") from None
            finally:
                with contextlib.suppress(ProcessLookupError):  # if all have ended
                    os.killpg(shell.pid, signal.SIGKILL)
        assert status == 0, f"status {status}: {_end_of(out)}{_end_of(err)}"
        return out.read_text(encoding="utf-8", errors="replace")

    def errors(self) -> str:
        """What the last commands wrote on standard error."""
        return (self.folder / "err").read_text(encoding="utf-8", errors="replace")


def wait_for(port: int) -> str:
    """The commands that wait until something answers at the port."""
    return f"until curl -s -o /dev/null http://127.0.0.1:{port}/; do sleep 0.05; done\n"


def _put(path: Path, text: str) -> None:
    """Write a program in place of what is there."""
    path.write_text(text, encoding="utf-8")
    path.chmod(0o755)


def _end_of(file: Path) -> str:
    return file.read_text(encoding="utf-8", errors="replace")[-1000:]
