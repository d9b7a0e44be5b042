"""Logs that somebody else wrote: escape sequences for the terminal, and few bytes that become very many."""

from __future__ import annotations

import gzip
from pathlib import Path

import pytest
from replay.running import Ran
from replay.schedules import HEAD
from replay.worked import ONE
from replay_log.launching import SMALL, Launcher, Logs, fails, needs_dask

pytestmark = pytest.mark.slow

engines = pytest.mark.parametrize("engine", ["processes", pytest.param("dask", marks=[needs_dask, pytest.mark.alone])])
# It sets a terminal's title, and its colour. As long as an id.
ESCAPES = b"\x1b]0;title\x07\x1b[31m\xc2\x9b1m\xe2\x80\xae\xff" + b"." * 13
ESCAPED = r"\x1b]0;title\x07\x1b[31m\x9b1m\u202e\xff" + "." * 13


def replayed(launcher: Launcher, *arguments: str | Path) -> Ran:
    told = launcher.run("replay", "--engine", "processes", "--room", str(launcher.room), *map(str, arguments))
    assert all(letter.isprintable() or letter == "\n" for letter in told.err)
    return told


def test_an_instance_with_escapes(launcher: Launcher, tmp_path: Path) -> None:
    log = tmp_path / "log"
    log.write_bytes("".join(f"{line}\n" for line in HEAD).encode() + 100 * (b"send " + ESCAPES + b"\n"))
    told = replayed(launcher, "--part-lines", "50", log)
    fails(told, 1, f"osb-replay-log: instance {ESCAPED} has 100 events: with 0 restarts and ")
    assert told.err.count("\n") == 1


def test_a_path_with_escapes(launcher: Launcher, tmp_path: Path) -> None:
    """A file of this name makes no second line, as if the program had written it."""
    name = "\x1b[2Ja\nosb-replay-log: done\u202e\u2028\x9b"
    none = tmp_path / name
    shown = r"\x1b[2Ja\nosb-replay-log: done\u202e\u2028\x9b"
    assert replayed(launcher, none) == Ran(
        3, "", f"osb-replay-log: {tmp_path}/{shown}: read failed: No such file or directory\n"
    )
    none.write_text(f"{HEAD[0]}\nsend {ONE}\nsend 1\n")
    assert replayed(launcher, none) == Ran(1, "", f"osb-replay-log: {tmp_path}/{shown}: line 3: BadId\n")


def test_an_argument_with_escapes(launcher: Launcher, logs: Logs) -> None:
    told = replayed(launcher, "--\x1b[31m\nred", *logs.paths)
    fails(told, 2, r"unrecognized arguments: --\x1b[31m\nred" + "\n")


def test_parts_with_escapes(launcher: Launcher, tmp_path: Path) -> None:
    """What another engine leaves beside the parts."""
    parts, log = tmp_path / "parts", tmp_path / "log"
    log.write_text("".join(f"{line}\n" for line in HEAD) + 3 * f"send {ONE}\n")
    split = ["--engine", "processes", "--part-lines", "20"]
    assert launcher.run("split", *split, "--parts", str(parts), str(log)) == Ran(0, "", "")
    line = ESCAPES + b" ready none\n"
    (parts / "part-000001.report").write_bytes(2 * line + b"applied 0\nskipped 3\n")
    told = launcher.run("merge", str(parts))
    fails(told, 3, f"instance {ESCAPED} is there twice")


# ---- the work directory


@pytest.fixture
def bomb(tmp_path: Path) -> str:
    """A gzip log of some kilobytes, of which the spool has 6 MB."""
    log = tmp_path / "bomb.gz"
    lines = (f"send {ONE[:-6]}{number:06x}".encode() + b" " * 400 + b"\n" for number in range(13_000))
    log.write_bytes(gzip.compress("".join(f"{line}\n" for line in HEAD).encode() + b"".join(lines)))
    assert log.stat().st_size < 200_000
    return str(log)


@engines
@pytest.mark.parametrize("command", ["replay", "split"])
def test_room_limit(launcher: Launcher, bomb: str, engine: str, command: str, tmp_path: Path) -> None:
    """A log that needs more is rejected, and nothing is left; with more it is replayed."""
    parts = ["--parts", str(tmp_path / "parts")] if command == "split" else []
    arguments = [command, "--engine", engine, "--workers", "2", "--room", str(launcher.room), *parts, *SMALL, bomb]
    told = launcher.run(*arguments, "--room-limit", "1M")
    fails(told, 4, "needs more than the 1,048,576 bytes that --room-limit allows")
    if command == "split":
        assert [*(tmp_path / "parts").iterdir()] == []
    assert launcher.run(*arguments, "--room-limit", "30M").status == 0


@pytest.mark.parametrize("byte", [b"\0", b"x", b"\n"], ids=["zeros", "a line that never ends", "blank lines"])
@pytest.mark.parametrize("is_head", [True, False])
def test_a_gzip_file_that_holds_far_more_than_its_size(
    launcher: Launcher, tmp_path: Path, byte: bytes, is_head: bool
) -> None:
    """It isn't read to its end, whether an event has come before or not."""
    log = tmp_path / "log.gz"
    with gzip.open(log, "wb") as file:
        file.writelines(f"{line}\n".encode() for line in HEAD)
        file.write(b"" if is_head else f"send {ONE}\n".encode())
        for _ in range(128):
            file.write(byte * (1 << 20))
    assert log.stat().st_size < 1 << 20
    told = replayed(launcher, "--engine", "processes", str(log))
    fails(told, 3, f"osb-replay-log: {log}: read failed: it holds more than 100 times its own size")


def test_room_limit_of_the_reports(launcher: Launcher, logs: Logs) -> None:
    """The reports are in the work directory too, and don't fit if there is space for the log alone."""
    size = Path(logs.whole).stat().st_size
    told = replayed(launcher, "--saved", "--room-limit", str(size), *SMALL, *logs.paths)
    fails(told, 4, "--room-limit")
    assert replayed(launcher, "--saved", "--room-limit", str(4 * size), *SMALL, *logs.paths).status == 0
