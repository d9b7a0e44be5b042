"""The program osb-replay-log, with processes and with Dask.

A worker that is killed, a signal, files that can't be read or written, and the parts of another engine.
"""

from __future__ import annotations

import os
import signal
import subprocess
import time
from collections.abc import Callable
from pathlib import Path

import pytest
from replay.running import EXAMPLES, Ran, run
from replay.worked import ONE, SERVICE
from replay_log.launching import (
    ENDLESS,
    LAUNCHER,
    SLOW,
    SMALL,
    Launcher,
    Logs,
    fails,
    is_running,
    needs_dask,
    parent,
    terminate,
)
from waiting import until

pytestmark = pytest.mark.slow

engines = pytest.mark.parametrize("engine", ["processes", pytest.param("dask", marks=[needs_dask, pytest.mark.alone])])
WRITE_FAILED = "osb-replay-log: write failed\n"


# ---- the workers of an engine


@engines
class TestEngine:
    """What the workers of each engine have to do."""

    def arguments(self, engine: str, launcher: Launcher, *paths: str) -> list[str]:
        return ["replay", "--engine", engine, "--workers", "2", "--room", str(launcher.room), *SMALL, *paths]

    def test_two_files(self, launcher: Launcher, logs: Logs, engine: str) -> None:
        told = launcher.run(*self.arguments(engine, launcher, "--settle", "--saved", *logs.paths))
        assert told == Ran(0, logs.report, "")

    def test_a_worker_is_killed(self, launcher: Launcher, logs: Logs, engine: str) -> None:
        program = launcher.instead(SLOW, killed=4)
        arguments = self.arguments(engine, launcher, "--settle", "--saved", *logs.paths)
        told = launcher.run(*arguments, environment={"OSB_REPLAY": program})
        assert (told.status, told.out) == (0, logs.report)
        assert (launcher.calls / "5").exists(), "no worker was killed"

    def test_sigterm(self, launcher: Launcher, logs: Logs, engine: str) -> None:
        program = launcher.instead(SLOW, seconds=0.5)
        process = launcher.begin(*self.arguments(engine, launcher, *logs.paths), environment={"OSB_REPLAY": program})
        until(lambda: (launcher.calls / "3").exists())
        assert terminate(process) == Ran(-signal.SIGTERM, "", "")
        assert not [*launcher.room.iterdir()]

    @pytest.mark.parametrize("ends", ["the program", "a worker"])
    def test_a_long_run_ends(self, launcher: Launcher, logs: Logs, engine: str, ends: str) -> None:
        """A run of osb-replay that takes long ends with its worker."""
        program = launcher.instead(ENDLESS)
        process = launcher.begin(*self.arguments(engine, launcher, *logs.paths), environment={"OSB_REPLAY": program})
        pid = launcher.calls / "2" / "pid"
        until(lambda: pid.exists() and pid.read_text())
        if ends == "a worker":
            its = int(pid.read_text())
            os.kill(parent(its), signal.SIGKILL)
            until(lambda: not is_running(its), seconds=5)
        told = terminate(process)
        assert (told.out, told.err) == ("", "")
        assert not [*launcher.room.iterdir()]

    def test_a_fault(self, launcher: Launcher, logs: Logs, engine: str, tmp_path: Path) -> None:
        text = Path(logs.first).read_text() + "send 1\n"
        bad = tmp_path / "bad.log"
        bad.write_text(text)
        told = launcher.run(*self.arguments(engine, launcher, str(bad), logs.second))
        fails(told, 1, f"osb-replay-log: {bad}: line {text.count(chr(10))}: BadId\n")


# ---- faults, which the program reports in its own words


def replayed(launcher: Launcher, *paths: str | Path, environment: dict[str, str] | None = None) -> Ran:
    arguments = ["--engine", "processes", "--room", str(launcher.room)]
    return launcher.run("replay", *arguments, *map(str, paths), environment=environment)


def test_a_late_plan(launcher: Launcher, logs: Logs, tmp_path: Path) -> None:
    text = Path(logs.first).read_text() + f"plan {SERVICE} {ONE} sync\n"
    late = tmp_path / "late.log"
    late.write_text(text)
    told = replayed(launcher, late, late)
    fails(told, 1, f"osb-replay-log: {late}: line {text.count(chr(10))}: LatePlan\n")


@pytest.mark.parametrize(
    ("line", "count", "message"),
    [
        (f"send {ONE}\n", 99_997, f"osb-replay-log: instance {ONE} has 100000 events"),
        ("restart\n", 100_000, "100000 restarts"),
    ],
    ids=["of an instance", "restarts"],
)
def test_too_many_lines(launcher: Launcher, tmp_path: Path, line: str, count: int, message: str) -> None:
    many = tmp_path / "many.log"
    many.write_text((EXAMPLES / "first.schedule").read_text() + line * count)
    fails(replayed(launcher, many), 1, message)


# ---- what can't be read or written


def test_no_such_log(launcher: Launcher, tmp_path: Path) -> None:
    none = tmp_path / "none"
    fails(replayed(launcher, none), 3, f"osb-replay-log: {none}: read failed: No such file")


def test_a_pipe_that_nobody_writes_to(launcher: Launcher, tmp_path: Path) -> None:
    os.mkfifo(tmp_path / "pipe")
    fails(replayed(launcher, tmp_path / "pipe"), 3, "it isn't a file")


def test_gzip_that_is_cut_short(launcher: Launcher, logs: Logs, tmp_path: Path) -> None:
    cut = tmp_path / "cut.gz"
    cut.write_bytes(Path(logs.second).read_bytes()[:1000])
    fails(replayed(launcher, logs.first, cut), 3, f"osb-replay-log: {cut}: read failed")


def test_no_such_room(launcher: Launcher, logs: Logs, tmp_path: Path) -> None:
    none = tmp_path / "none"
    told = launcher.run("replay", "--room", str(none), *logs.paths)
    fails(told, 4, f"osb-replay-log: {none}: write failed")


def test_a_full_room(launcher: Launcher, logs: Logs) -> None:
    arguments = ["replay", "--engine", "processes", "--room", str(launcher.room), *logs.paths]
    told = launcher.run_by(["prlimit", "--fsize=102400", str(LAUNCHER)], *arguments)
    fails(told, 4, "write failed: File too large")


OUTPUTS = {
    "full": '"$0" "$@" >/dev/full',
    "closed": '"$0" "$@" >&-',
    "nobody reads": 'exec 3> >(:); wait $!; "$0" "$@" >&3',
}


@pytest.mark.parametrize("line", OUTPUTS.values(), ids=OUTPUTS)
def test_output(launcher: Launcher, logs: Logs, line: str) -> None:
    arguments = ["replay", "--engine", "processes", "--room", str(launcher.room), *logs.paths]
    assert launcher.run_by(["bash", "-c", line, str(LAUNCHER)], *arguments) == Ran(4, "", WRITE_FAILED)


@pytest.mark.parametrize(
    ("arguments", "message"),
    [
        (["--part-lines", "100001"], "error: argument --part-lines"),
        (["--scheduler", ""], "argument --scheduler: it is empty"),
        (["--engine", "processes", "--scheduler", "tcp://127.0.0.1:1"], "argument --scheduler: its workers"),
    ],
    ids=["part lines", "empty scheduler", "scheduler of processes"],
)
def test_rejected_arguments(launcher: Launcher, logs: Logs, arguments: list[str], message: str) -> None:
    fails(launcher.run("replay", *arguments, *logs.paths), 2, message)


def test_no_program(launcher: Launcher, logs: Logs, tmp_path: Path) -> None:
    none = str(tmp_path / "none")
    fails(replayed(launcher, *logs.paths, environment={"OSB_REPLAY": none}), 70, f"{none}: it can't be run")


def test_modules_of_the_current_folder_are_not_run(launcher: Launcher, logs: Logs, tmp_path: Path) -> None:
    for module in ("pickle", "selectors", "multiprocessing"):
        (tmp_path / f"{module}.py").write_text("open('ran', 'w')\n")
    arguments = ["replay", "--settle", "--saved", "--engine", "processes", "--room", "room", *SMALL, *logs.paths]
    told = launcher.run_by(["env", "-C", str(tmp_path), str(LAUNCHER)], *arguments)
    assert told == Ran(0, logs.report, "")
    assert not [*tmp_path.rglob("ran")]


def test_a_signal_that_is_ignored(launcher: Launcher, logs: Logs, tmp_path: Path) -> None:
    arguments = ["--settle", "--saved", "--engine", "processes", "--room", str(launcher.room), *SMALL, *logs.paths]
    program = launcher.instead(SLOW, seconds=0.1)
    with subprocess.Popen(
        ["sh", "-c", 'trap \'\' HUP; exec "$0" "$@"', LAUNCHER, "replay", *arguments],
        stdin=subprocess.DEVNULL,
        stdout=subprocess.PIPE,
        stderr=subprocess.PIPE,
        env={**launcher.environment, "OSB_REPLAY": program},
    ) as process:
        until(lambda: (launcher.calls / "2").exists())
        process.send_signal(signal.SIGHUP)
        time.sleep(0.1)
        out, err = process.communicate(timeout=60)
    assert Ran(process.returncode, out.decode(), err.decode()) == Ran(0, logs.report, "")


# ---- the parts of another engine

Split = Callable[..., Path]


@pytest.fixture
def split(launcher: Launcher, replay: Path, tmp_path: Path) -> Split:
    """Splits logs, and has the parts replayed as another engine does, which writes something to standard error."""

    def done(*paths: str | Path, options: tuple[str, ...] = ("--settle", "--saved"), words: str = "") -> Path:
        parts = tmp_path / "parts"
        arguments = ["--engine", "processes", "--part-lines", "600", "--parts", str(parts)]
        assert launcher.run("split", *arguments, *map(str, paths)) == Ran(0, "", "")
        for part in sorted(parts.glob("*.schedule")):
            ran = run(replay, "replay", *options, given=part.read_bytes())
            part.with_suffix(".report").write_text(ran.out)
            part.with_suffix(".err").write_text(words + ran.err)
        return parts

    return done


def test_merge(launcher: Launcher, logs: Logs, split: Split) -> None:
    parts = split(*logs.paths)
    assert len([*parts.glob("*.schedule")]) > 1
    assert launcher.run("merge", "--saved", str(parts)) == Ran(0, logs.report, "")


def test_merge_without_the_saved_record(launcher: Launcher, logs: Logs, split: Split) -> None:
    without = "".join(logs.report.splitlines(keepends=True)[:-1])
    assert launcher.run("merge", str(split(*logs.paths))) == Ran(0, without, "")


def test_a_report_of_another_part(launcher: Launcher, logs: Logs, split: Split) -> None:
    first = split(*logs.paths) / "part-000001.report"
    first.write_text(first.with_name("part-000002.report").read_text())
    fails(launcher.run("merge", str(first.parent)), 3, f"{first}: it isn't of this log")


def test_an_instance_twice(launcher: Launcher, logs: Logs, split: Split) -> None:
    """The report of another part, with the counts of this one."""
    first = split(*logs.paths) / "part-000001.report"
    events = [line for line in first.with_suffix(".schedule").read_text().splitlines() if not line.startswith("plan ")]
    other = first.with_name("part-000002.report").read_text().splitlines()
    counts = {"applied": len(events), "skipped": 0}
    told = [f"{line.split()[0]} {counts.get(line.split()[0])}" if line.split()[0] in counts else line for line in other]
    first.write_text("".join(f"{line}\n" for line in told))
    fails(launcher.run("merge", str(first.parent)), 3, "is there twice")


@pytest.mark.parametrize(
    "text", ["[]", '{"version": 1, "logs": [], "events": "1", "plans": 0, "restarts": true}'], ids=["list", "types"]
)
def test_what_is_no_log_json(launcher: Launcher, logs: Logs, split: Split, text: str) -> None:
    log_json = split(*logs.paths) / "log.json"
    log_json.write_text(f"{text}\n")
    fails(launcher.run("merge", str(log_json.parent)), 3, f"{log_json}: it isn't what")


def test_a_report_that_is_missing(launcher: Launcher, logs: Logs, split: Split) -> None:
    last = sorted(split(*logs.paths).glob("*.report"))[-1]
    last.unlink()
    fails(launcher.run("merge", str(last.parent)), 3, f"{last}: read failed")


def test_parts_where_something_is(launcher: Launcher, logs: Logs, tmp_path: Path) -> None:
    told = launcher.run("split", "--parts", str(tmp_path), *logs.paths)
    fails(told, 78, "the folder isn't empty")


def test_a_fault_that_another_engine_met(launcher: Launcher, logs: Logs, split: Split, tmp_path: Path) -> None:
    text = Path(logs.whole).read_text().splitlines()
    text[4999] = "send 00000000-0000-0000-0000-000000000002 now"
    bad = tmp_path / "bad.log"
    bad.write_text("".join(f"{line}\n" for line in text))
    parts = split(bad, options=(), words="words of a launcher\n")
    fails(launcher.run("merge", str(parts)), 1, f"{bad}: line 5000: WordCount")
