"""What the tests of the launcher share: the launcher, and a log with its report."""

from __future__ import annotations

import gzip
import random
from pathlib import Path

import pytest
from replay.running import run
from replay.schedules import HEAD, instance, lines
from replay_log.launching import Launcher, Logs


def log() -> bytes:
    """Of 300 instances, of which one is named in capitals too."""
    chance = random.Random(7)
    names = [*map(instance, range(1, 300)), "00000000-0000-0000-0000-00000000ABCD"]
    its = lines(names)
    events = [chance.choice(its) for _ in range(9000)]
    events = [line for at, line in enumerate(events) if line != "restart" or at % 20 == 0]
    events.insert(5000, "send 00000000-0000-0000-0000-00000000abcd")
    return "".join(f"{line}\n" for line in HEAD + events).encode()


@pytest.fixture(scope="module")
def logs(replay: Path, tmp_path_factory: pytest.TempPathFactory) -> Logs:
    folder, text = tmp_path_factory.mktemp("logs"), log()
    half = text.index(b"\n", len(text) // 3) + 1
    first, second, whole = folder / "first.log", folder / "second.log.gz", folder / "whole"
    first.write_bytes(text[:half])
    second.write_bytes(gzip.compress(text[half:]))
    whole.write_bytes(text)
    report = run(replay, "replay", "--settle", "--saved", given=text)
    assert (report.status, report.err) == (0, "")
    return Logs(str(first), str(second), str(whole), report.out)


@pytest.fixture
def launcher(tmp_path: Path, replay: Path) -> Launcher:
    return Launcher(tmp_path, replay)
