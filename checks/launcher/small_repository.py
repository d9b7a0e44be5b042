"""A small repository around the real launchers: its crates are a line each, and a script stands for the Rattle kit."""

from __future__ import annotations

import os
import shutil
import subprocess
import sys
from pathlib import Path

from commands import ran

TOP = Path(__file__).resolve().parents[2]

ROWS = """\
# A comment.
osb_world: uuid
osb_replay: osb_world
osb_c: osb_world
osb_c_instance: osb_world
osb_c_binding: osb_c_instance
osb_c_update: osb_c_instance
osb_c_driver: osb_c_binding
osb_c_update_driver: osb_c_driver
osb_c_platform_driver: osb_c_instance
osb_c_wire: osb_world
osb_c_binding_wire: osb_c_wire
osb_c_update_wire: osb_c_wire
library_cases: osb_world
refusal_cases: osb_world
service_cases: osb_world
"""

# Stands for rt. It writes a line to `builds` for each crate, and takes as many seconds as the file `seconds` says.
RT = """\
#!/usr/bin/env bash
name=${PWD##*/}
home=${0%/*}/..
cat >>"$home/stolen"
case $1 in
    version) cat "$home/version" ;;
    lib | run)
        echo "$$ $name" >>"$home/builds"
        sleep "$(cat "$home/seconds")"
        echo "functions=7"
        grep -rq 'not proved' src && { echo "error: a goal is open"; exit 1; }
        mkdir -p out/rlib
        [ "$1" = lib ] || printf '#!/bin/sh\\necho "built: $*"\\ncat\\nexit 9\\n' >"out/$name"
        [ "$1" = lib ] || chmod +x "out/$name"
        ;;
esac
"""
# Stands for scripts/link_library, which wants the kit's archives.
LINK = """#!/bin/sh\necho built >"$1/libosb.so"\necho built >"$1/libosb.a"\n"""
CASES = ("library_cases", "refusal_cases", "service_cases")
PROGRAM = """#!/bin/sh\necho "prebuilt: $*"\ncat\nexit 9\n"""


class Repository:
    """The repository, with prebuilt files that fit its sources."""

    def __init__(self, folder: Path) -> None:
        self.folder, self.top, self.kit = folder, folder / "repository", folder / "kit"
        (self.top / "include").mkdir(parents=True)
        shutil.copytree(TOP / "scripts", self.top / "scripts", ignore=shutil.ignore_patterns("__pycache__"))
        for name in ("osb-replay", "libosb", "include/osb.h"):
            shutil.copy2(TOP / name, self.top / name)
        self.write("scripts/link_library", LINK)
        (self.top / "crates.txt").write_text(ROWS)
        for row in ROWS.splitlines()[1:]:
            self.write(f"crates/{row.partition(':')[0]}/src/lib.rt", "fn step\n")
        self.write("crates/osb_world/specs/Steps.antt", "applies\n")
        self.world = self.top / "crates" / "osb_world"
        self._stand_in_for_rt()
        machine = os.uname()
        self.prebuilt = self.top / "prebuilt" / f"{machine.machine}-{machine.sysname}".lower()
        self.built = self.top / "out" / self.prebuilt.name
        self._fill_prebuilt()

    def write(self, name: str, text: str) -> None:
        """A file that can be executed, in the place of what is there."""
        path = self.top / name
        path.parent.mkdir(parents=True, exist_ok=True)
        path.write_text(text)
        path.chmod(0o755)

    def _stand_in_for_rt(self) -> None:
        (self.kit / "bin").mkdir(parents=True)
        (self.kit / "bin" / "rt").write_text(RT)
        (self.kit / "bin" / "rt").chmod(0o755)
        (self.kit / "version").write_text("kit 1\n")
        (self.kit / "seconds").write_text("0\n")
        (self.kit / "python3").write_text(f'#!/bin/sh\nexec "{sys.executable}" "$@"\n')
        (self.kit / "python3").chmod(0o755)

    def _fill_prebuilt(self) -> None:
        texts = {"libosb.so": "prebuilt\n", "libosb.a": "prebuilt\n", **dict.fromkeys(("osb-replay", *CASES), PROGRAM)}
        for name, text in texts.items():
            self.write(str(self.prebuilt.relative_to(self.top) / name), text)
        self.record_prebuilt()

    def record_prebuilt(self) -> None:
        """Writes into MANIFEST what the prebuilt files are now."""
        each = 'record "$prebuilt" $it "$(digest_of_sources $it)" "kit 1"'
        script = f". scripts/artifacts.sh && for it in replay library cases; do {each}; done"
        subprocess.run(["bash", "-c", f"top=$PWD who=test; {script}"], cwd=self.top, check=True)

    def environment(self, has_rt: bool = True) -> dict[str, str]:
        """With the PATH of this process, on which no rt is but the one that stands for it."""
        inherited = [folder for folder in os.environ["PATH"].split(":") if not (Path(folder) / "rt").exists()]
        path = [*([str(self.kit / "bin")] if has_rt else []), str(self.kit), *inherited]
        return {**os.environ, "PATH": ":".join(path)}

    def run(self, *command: str, has_rt: bool = True, **variables: str) -> subprocess.CompletedProcess[str]:
        line, environment = [self.top / command[0], *command[1:]], {**self.environment(has_rt), **variables}
        return ran(line, self.folder, environment, given="a schedule", seconds=60)

    def builds(self) -> list[str]:
        """The crates that were built, in this order."""
        builds = self.kit / "builds"
        return [line.split()[1] for line in builds.read_text().splitlines()] if builds.exists() else []
