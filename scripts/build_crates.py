#!/usr/bin/env python3
"""Proves and builds crates and all crates below them, several at once, with the command rt.

    build_crates.py WHO NAME,NAME archive          each library as out/libNAME.a, as rt lib makes it of a static library
    build_crates.py WHO NAME program ARGUMENT ..   a program as out/NAME, as rt run makes it and runs it

WHO is put before each line of a report. A crate is started when all below it are built. rt locks the folders of a crate
and of all below it, so each crate has a work directory: a folder with a crates.txt and the files of those crates, as
hard links. What rt makes there is then moved to where rt would have made it. The program itself is built in its own
folder, last, from what was moved there.
"""
from __future__ import annotations

import graphlib
import os
import re
import shutil
import signal
import subprocess
import sys
import time
from pathlib import Path

import ledger

TOP = Path(__file__).resolve().parent.parent
SOURCES = ("src", "specs", "proofs")
# What rt stores about a crate for its next proof.
KEPT = "out/incremental"
# So many crates at once: each needs a processor and some memory.
MEMORY = os.sysconf("SC_PHYS_PAGES") * os.sysconf("SC_PAGE_SIZE")
LANES = max(1, min(3 * len(os.sched_getaffinity(0)) // 4, MEMORY // (5 << 30)))


def crates_of(wanted: list[str]) -> dict[str, tuple[str, list[str]]]:
    """The wanted crates and all below them, lowest first: the line of each in crates.txt, and the crates in it."""
    rows = ledger.rows_of(TOP)
    needed = ledger.below(rows, wanted)
    uses = {name: below for name, (_, below) in rows.items() if name in needed}
    return {name: rows[name] for name in graphlib.TopologicalSorter(uses).static_order()}


class NotBuilt(Exception):
    """A crate isn't proved and built, or a signal has ended the build."""


class Build:
    """The build of the wanted crates."""

    def __init__(self, who: str, wanted: list[str], kind: str, arguments: list[str]) -> None:
        self.who, self.wanted, self.kind, self.arguments = who, wanted, kind, arguments
        self.crates = crates_of(wanted)
        out = TOP / "crates" / wanted[0] / "out"
        self.workdirs, self.log = out / "workdirs", out / "build.log"
        self.running: dict[str, subprocess.Popen[bytes]] = {}
        self.ended, self.begun = 0, time.monotonic()
        self.is_stopped = False
        for number in (signal.SIGTERM, signal.SIGHUP, signal.SIGINT):
            if signal.getsignal(number) != signal.SIG_IGN:  # under nohup, SIGHUP stays ignored
                signal.signal(number, self.on_signal)

    def on_signal(self, *_: object) -> None:
        """Has the build end soon. An exception here could come after the start of an rt and before it is stored."""
        self.is_stopped = True

    def say(self, text: str) -> None:
        """Reports on standard error."""
        print(f"{self.who}: {text}", file=sys.stderr, flush=True)

    def ways(self) -> dict[str, int]:
        """The bytes of the sources on the longest way from each crate to the end: about how long the proofs take."""
        found: dict[str, int] = {}
        for name in reversed(self.crates):
            files = [file for part in SOURCES for file in (TOP / "crates" / name / part).rglob("*")]
            above = [found[user] for user, (_, uses) in self.crates.items() if name in uses]
            found[name] = sum(file.lstat().st_size for file in files) + max(above, default=0)
        return found

    def furnish(self, name: str) -> Path:
        """Makes the crate's work directory, and returns its folder there. The line of an archive says staticlib."""
        workdir, names = self.workdirs / name, ledger.below(self.crates, [name])
        for crate, part in [*((crate, part) for crate in names for part in (*SOURCES, "out/rlib")), (name, KEPT)]:
            source = TOP / "crates" / crate / part
            if source.is_dir():
                shutil.copytree(source, workdir / "crates" / crate / part, symlinks=True, copy_function=os.link)
        rows = {crate: row for crate, (row, _) in self.crates.items() if crate in names}
        if name in self.wanted:
            rows[name] = rows[name].replace(name, f"{name} staticlib", 1)
        (workdir / "crates.txt").write_text("".join(f"{row}\n" for row in rows.values()))
        return workdir / "crates" / name

    def empty(self, name: str) -> None:
        """Moves what rt made in the crate's work directory to the crate's own folder, and removes the directory."""
        workdir, out = self.workdirs / name, TOP / "crates" / name / "out"
        for made in [*(workdir / "crates" / name / "out").glob("*")]:
            out.mkdir(exist_ok=True)
            if (out / made.name).exists():
                (out / made.name).rename(workdir / f"old-{made.name}")
            made.rename(out / made.name)
        shutil.rmtree(workdir, ignore_errors=True)

    def begin(self, name: str) -> None:
        """Starts rt for a crate. It builds a program only to run it."""
        folder, command = TOP / "crates" / name, ["rt", "run", "--", *self.arguments]
        if name not in self.wanted or self.kind == "archive":
            folder, command = self.furnish(name), ["rt", "lib"]
        with open(self.workdirs / f"{name}.output", "wb") as output:
            self.running[name] = subprocess.Popen(
                command,
                cwd=folder,
                stdin=subprocess.DEVNULL,
                stdout=output,
                stderr=subprocess.STDOUT,
                start_new_session=True,
            )

    def end(self, name: str, status: int) -> None:
        """Reports a crate whose rt has ended."""
        del self.running[name]
        output = (self.workdirs / f"{name}.output").read_text(errors="replace")
        with open(self.log, "a") as log:
            log.write(f"== {name}\n{output}")
        self.empty(name)
        if status != 0:
            self.say(f"{name} isn't proved and built; the end of {self.log.relative_to(TOP)}:")
            print(*(line[:300] for line in output.splitlines()[-20:]), sep="\n", file=sys.stderr)
            raise NotBuilt
        self.ended += 1
        proved = re.findall(r"\bfunctions=(\d+)", output)
        functions = f", {proved[-1]} functions proved" if proved else ""
        minutes, seconds = divmod(int(time.monotonic() - self.begun), 60)
        self.say(f"crate {self.ended} of {len(self.crates)}, {name}{functions}, {minutes}:{seconds:02}")

    def run(self) -> None:
        """Starts each crate when all below it are built, first those with the most work after them."""
        shutil.rmtree(self.workdirs, ignore_errors=True)
        self.workdirs.mkdir(parents=True)
        self.log.write_text("")
        way = self.ways()
        order = graphlib.TopologicalSorter({name: uses for name, (_, uses) in self.crates.items()})
        order.prepare()
        ready: list[str] = []
        while order.is_active():
            ready = sorted([*ready, *order.get_ready()], key=way.__getitem__)
            while ready and len(self.running) < LANES:
                self.begin(ready.pop())
            time.sleep(0.1)
            if self.is_stopped:
                raise NotBuilt
            for name, process in [*self.running.items()]:
                if process.poll() is not None:
                    self.end(name, process.returncode)
                    order.done(name)

    def stop(self) -> None:
        """Ends all crates that are being built."""
        for process in self.running.values():
            os.killpg(process.pid, signal.SIGKILL)
            process.wait()
        shutil.rmtree(self.workdirs, ignore_errors=True)


def main() -> int:
    who, names, kind, *arguments = sys.argv[1:]
    try:
        build = Build(who, names.split(","), kind, arguments)
        try:
            build.run()
        finally:
            build.stop()
    except NotBuilt:
        return 1
    except (OSError, KeyError) as error:
        print(f"{who}: the crates can't be built: {error}", file=sys.stderr)
        return 1
    return 0


if __name__ == "__main__":
    sys.exit(main())
