"""Proves the crates and tries their mutants: the first step of the gate.

It does what has no fitting line in the ledger, and a tenth of the rest (scripts/ledger.py); or everything. In a copy of
the crates, out/proofs, `rt ci` proves them and runs their programs, and then the mutants are tried there
(scripts/must_fail.py). What was built is moved to where `rt lib` and the comparison of the prebuilt files look for it.
"""

from __future__ import annotations

import fcntl
import importlib.util
import os
import re
import shutil
import subprocess
from collections.abc import Callable, Iterable
from concurrent.futures import ThreadPoolExecutor
from pathlib import Path
from typing import NamedTuple

import ledger
import must_fail

PARTS = ("src", "specs", "proofs", "c", "data", "stdin", "stdout", "args", "status")
"""What a crate's folder has beside its mutants."""

LANES = max(1, min(len(os.sched_getaffinity(0)), os.sysconf("SC_PHYS_PAGES") * os.sysconf("SC_PAGE_SIZE") // (4 << 30)))
"""So many crates' mutants are tried at once. Each needs a processor and up to 4 GB."""

PROGRAMS = {"osb_replay": "osb-replay"}
"""The crates whose program has another name."""

Run = Callable[[list[str], Path], tuple[int, list[str]]]
"""Runs a command in a folder, and shows its output. Returns its status and its lines."""


class Proofs(NamedTuple):
    """What was proved and refused in a run, and a line for each failure."""

    passed: list[str]
    failures: list[str]


def prove(top: Path, run: Run, anew: bool) -> Proofs:
    """Does what the ledger asks for, or everything, and writes the ledger. Meanwhile the launchers build nothing, and
    nothing is left of a build that was ended.
    """
    with open(top / "crates.txt") as lock:
        fcntl.flock(lock, fcntl.LOCK_EX)
        for left in [top / "out", *top.glob("crates/*/out/workdirs")]:
            shutil.rmtree(left, ignore_errors=True)
        kit = version()
        now = ledger.lines_now(top, kit)
        plan = ledger.plan(now, {} if anew else ledger.read(top), ledger.rows_of(top), commit(top))
        print(told(plan, now), flush=True)
        passed, failures = carry_out(top, run, plan, anew)
        after = ledger.lines_now(top, kit)
        ledger.add(top, {name: now[name] for name in passed if after.get(name) == now[name]})
        return Proofs(passed, failures)


def carry_out(top: Path, run: Run, plan: ledger.Plan, anew: bool) -> Proofs:
    copy = top / "out" / "proofs"
    crates = copy_crates(top, copy, plan.crates())
    failures = prove_crates(copy, run, crates, anew)
    passed = [] if failures else sorted(plan.crates() & plan.names)
    if not failures:
        stamp(copy, crates)
        refused = try_mutants(top, copy, plan.mutants())
        passed += refused
        failures = [f"not refused: {name}" for name in plan.mutants() if name not in refused]
    move_built(copy, top, crates)
    return Proofs(passed, failures)


def told(plan: ledger.Plan, now: ledger.Ledger) -> str:
    """What is done in this run, in a line."""
    new, again = len(plan.names) - len(plan.chosen), len(plan.chosen)
    return f"ledger: {len(now) - new} of {len(now)} lines fit; this run does the other {new}, and {again} that fit"


def version() -> str:
    """The version line of the kit."""
    return subprocess.run(
        ["rt", "version"], stdin=subprocess.DEVNULL, capture_output=True, text=True, check=True
    ).stdout


def commit(top: Path) -> str:
    """The hash of the commit in this checkout, or nothing if there is none."""
    ran = subprocess.run(
        ["git", "rev-parse", "HEAD"], cwd=top, stdin=subprocess.DEVNULL, capture_output=True, text=True
    )
    return ran.stdout.strip() if ran.returncode == 0 else ""


def copy_crates(top: Path, copy: Path, names: Iterable[str]) -> set[str]:
    """Copies these crates and all below them, without their mutants. Returns which they are."""
    rows = ledger.rows_of(top)
    needed = ledger.below(rows, names)
    (copy / ".git").mkdir(parents=True)  # rt takes it for the top of a repository, without which `rt ci` proves nothing
    (copy / "crates.txt").write_text("".join(f"{line}\n" for name, (line, _) in rows.items() if name in needed))
    if (top / "HANDLES").exists():
        shutil.copy(top / "HANDLES", copy)
    for name in needed:
        folder = copy / "crates" / name
        folder.mkdir(parents=True)
        for part in PARTS:
            source = top / "crates" / name / part
            if source.is_dir():
                shutil.copytree(source, folder / part, symlinks=True)
            elif source.exists():
                shutil.copy(source, folder)
    return needed


def prove_crates(copy: Path, run: Run, crates: set[str], anew: bool) -> list[str]:
    """Proves all crates of the copy from nothing, and runs the programs among them. Returns a line for each failure."""
    status, lines = run(["rt", "ci", *(["--anew"] if anew else [])], copy)
    proved = {match[1] for line in lines if (match := re.fullmatch(r"rt: (\S+) (?:proved|is kept: .*)", line))}
    failures = [f"not proved: {name}" for name in sorted(crates - proved)]
    return failures if failures or status == 0 else [f"`rt ci` ended with status {status}"]


def stamp(copy: Path, crates: Iterable[str]) -> None:
    """Lets `rt lib` and `rt check` take the libraries that `rt ci` has just proved and built, so that none is proved a
    second time.

    They take a library that has the stamp of its sources. `rt ci` leaves none, since what it states of a library fits
    only the libraries below that it was built over. Here all are of one run. If the kit has no such stamp, the
    libraries are proved once more.
    """
    try:
        page = subprocess.run(
            ["rt", "doc"], stdin=subprocess.DEVNULL, capture_output=True, text=True, check=True
        ).stdout
        spec = importlib.util.spec_from_file_location("rtlib", Path(page.strip()).parent / "bin" / "rtlib.py")
        assert spec is not None and spec.loader is not None
        rtlib = importlib.util.module_from_spec(spec)
        spec.loader.exec_module(rtlib)
        for name in crates:
            rlib = copy / "crates" / name / "out" / "rlib"
            if rlib.is_dir():
                (rlib / "stamp").write_text(rtlib.Crate(str(copy / "crates" / name), str(copy), {}).stamp())
    except Exception as error:  # whatever the kit raises
        print(
            f"gate: the libraries that `rt ci` builds can't be taken, and are proved once more: {error!r}", flush=True
        )


def try_mutants(top: Path, copy: Path, mutants: list[str]) -> list[str]:
    """Tries these mutants, those of several crates at once. Returns the names of those that the prover refused."""
    edits: dict[str, list[Path]] = {}
    for name in mutants:
        edits.setdefault(ledger.crate_of(name), []).append(ledger.edit_of(top, name))
    longest_first = sorted(edits, key=lambda crate: len(edits[crate]) * size_of(copy / "crates" / crate), reverse=True)
    with ThreadPoolExecutor(LANES) as lanes:
        tries = {crate: lanes.submit(try_mutants_of, copy, crate, edits[crate]) for crate in longest_first}
        refused = {f"{crate}/{name}": how for crate, future in tries.items() for name, how in future.result().items()}
    for name in mutants:
        print(f"must-fail {name}: {refused.get(name, 'NOT REFUSED')}", flush=True)
    return [name for name in mutants if name in refused]


def size_of(crate: Path) -> int:
    """The bytes of a crate's sources and proofs, which say roughly how long a check of it takes."""
    return sum(path.stat().st_size for part in ("src", "proofs") for path in (crate / part).rglob("*"))


def try_mutants_of(copy: Path, crate: str, edits: list[Path]) -> dict[str, str]:
    """Tries the mutants of a crate in a folder of its own, since rt locks a crate and all below it."""
    rows = ledger.rows_of(copy)
    needed = ledger.below(rows, [crate])
    folder = copy / "mutants" / crate
    for name in needed:
        for part in ("src", "specs", "proofs", "out/rlib"):
            source = copy / "crates" / name / part
            if source.is_dir() and (name != crate or part != "out/rlib"):
                shutil.copytree(source, folder / "crates" / name / part, symlinks=True, copy_function=os.link)
    (folder / "crates.txt").write_text("".join(f"{line}\n" for name, (line, _) in rows.items() if name in needed))
    try:
        return {name: f"refused, {how}" for name, how in must_fail.try_all(folder / "crates" / crate, edits)}
    finally:
        shutil.rmtree(folder)


def move_built(copy: Path, top: Path, crates: Iterable[str]) -> None:
    """Moves what `rt ci` built to the crates' own folders, puts the programs into out/programs under the names of the
    prebuilt ones, and removes the copy.
    """
    programs = top / "out" / "programs"
    programs.mkdir()
    for name in crates:
        built, to = copy / "crates" / name / "out", top / "crates" / name / "out"
        shutil.rmtree(to, ignore_errors=True)
        if built.is_dir():
            shutil.move(built, to)
        if (to / name).is_file():
            shutil.copy(to / name, programs / PROGRAMS.get(name, name))
    shutil.rmtree(copy)
