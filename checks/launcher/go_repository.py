"""The small repository with the launcher of a program in Go, and scripts that stand for Go and the C compiler."""

from __future__ import annotations

import os
import shutil
import subprocess
from pathlib import Path

from commands import begun
from launcher.small_repository import TOP, Repository

# Stands for go. It writes a line with its arguments to `go-builds`, takes as many seconds as the file `seconds` says,
# and builds a program that prints main.go, its arguments and its standard input.
GO = """\
#!/usr/bin/env bash
home=${0%/*}
echo "$$ $*" >>"$home/go-builds"
cat >>"$home/stolen"
sleep "$(cat "$home/seconds")"
echo "a warning" >&2
while [ "$1" != -o ]; do shift; done
grep -rq fault . && { echo "main.go:1: a fault" >&2; exit 1; }
printf '#!/bin/sh\\necho "%s: $*"\\ncat\\nexit 9\\n' "$(cat "${@: -1}/main.go")" >"$2"
chmod +x "$2"
"""


class GoRepository(Repository):
    """It has an archive of the library, and the sources of a program."""

    def __init__(self, folder: Path, name: str) -> None:
        """`name`: the program's, as osb-broker."""
        super().__init__(folder)
        self.name, self.variable = name, name.upper().replace("-", "_")
        shutil.copy2(TOP / name, self.top / name)
        for file, text in (("main.go", "first"), ("catalogue.json", "{}"), ("main_test.go", "a test")):
            self.write(f"go/cmd/{name}/{file}", text)
        self.main, self.program = self.top / "go" / "cmd" / name / "main.go", self.top / "out" / "go" / name
        self.tool("go", GO)
        self.tool("pkg-config", "#!/bin/sh\n")
        self.tool("gcc", "#!/bin/sh\ncat >/dev/null\n")

    def tool(self, name: str, text: str) -> None:
        """A program on the PATH."""
        (self.kit / name).write_text(text)
        (self.kit / name).chmod(0o755)

    def environment(self, has_rt: bool = True) -> dict[str, str]:
        """Without what this run of the tests uses."""
        left_out = (self.variable, "LIBOSB_FOLDER", "GOFLAGS", "CC")
        return {name: value for name, value in super().environment(has_rt).items() if name not in left_out}

    def start(self, *arguments: str) -> subprocess.Popen[str]:
        """The launcher as a process."""
        return begun([self.top / self.name, *arguments], self.environment())

    def go_builds(self) -> list[str]:
        """The process and the arguments of each build."""
        builds = self.kit / "go-builds"
        return builds.read_text().splitlines() if builds.exists() else []


def edit_keeping_time_and_length(file: Path, text: str) -> None:
    """What a digest sees, and a time of change doesn't."""
    before = file.stat()
    assert len(text) == before.st_size
    file.write_text(text)
    os.utime(file, ns=(before.st_atime_ns, before.st_mtime_ns))
