"""What osb-replay-log makes of a log is what one run of osb-replay makes of the whole.

The longest logs are longer than a schedule may be, so they are compared with the reference of replay/reference.py. One
worker stands for all: it does tasks in any order, and some of them twice, as if a worker had died.

OSB_EXAMPLES=10 compares ten times as many logs, drawn at random (checks/generated.py).
"""

from __future__ import annotations

import io
import itertools
import tempfile
from collections import Counter
from collections.abc import Callable, Iterable, Iterator
from pathlib import Path

import pytest
from generated import examples, vary
from hypothesis import given
from hypothesis import strategies as st
from osb_replay_log import reports, work
from osb_replay_log.engines import Given, Result
from osb_replay_log.faults import Unreplayed
from osb_replay_log.logs import from_paths
from osb_replay_log.program import Program
from osb_replay_log.progress import Progress
from osb_replay_log.spool import Room
from replay_log.expected import Came, by_program, by_reference
from replay_log.logs import Log, large_logs, small_logs

pytestmark = pytest.mark.slow

OPTIONS: list[list[str]] = [[], ["--settle"], ["--saved"], ["--settle", "--saved"]]


class AnyOrder:
    """An engine that does up to five tasks by turns, in the order of these picks, and some of them twice."""

    def __init__(self, picks: list[int]) -> None:
        self._picks = itertools.cycle(picks or [0])

    def each(self, task: Callable[[Given], Result], given: Iterable[Given]) -> Iterator[Result]:
        """As `Engine` has it."""
        waiting = iter(given)
        running: list[Given] = []
        while True:
            running += itertools.islice(waiting, 5 - len(running))
            if not running:
                return
            pick = next(self._picks)
            one = running.pop(pick % len(running))
            if pick >= 18:
                task(one)
            yield task(one)

    def close(self) -> None:
        """There is nothing to end."""


PICKS = st.lists(st.integers(0, 19), max_size=12)


class Portions:
    """How many lines a part has at most, and how many bytes are taken at once; and how many parts there were."""

    def __init__(self, most: int, chunk: int) -> None:
        self.most, self.chunk, self.parts = most, chunk, 0


def came(program: Path, paths: list[str], options: list[str], portions: Portions, engine: AnyOrder) -> Came:
    """What osb-replay-log makes of the log in these files."""
    with tempfile.TemporaryDirectory() as folder:
        try:
            its = work.Work(
                from_paths(paths),
                Program(str(program), tuple(options)),
                Room(folder),
                portions.most,
                portions.chunk,
                Progress(False),
            )
            done = work.do(its, engine, True)
            out = io.BytesIO()
            found = [reports.report_in(file) for file in done.files]
            reports.write(found, done.restarts, "--saved" in options, its.room, out)
        except Unreplayed as error:
            return Came(error.status, "", error.said)
    portions.parts = len(done.files)
    return Came(0, out.getvalue().decode(), "")


def compare(program: Path, log: Log, options: list[str], portions: Portions, engine: AnyOrder) -> Came:
    """Compares the two, and returns what came of it."""
    with tempfile.TemporaryDirectory() as folder:
        paths = log.write(Path(folder))
        expected = by_program(program, log, paths, options)
        got = came(program, paths, options, portions, engine)
    if portions.most < log.needed() and (expected.status == 0 or got != expected):
        assert got.status == 1 and f" {portions.most} lines" in got.said
    else:
        assert got == expected
    return expected


@pytest.mark.parametrize("options", OPTIONS, ids=" ".join)
def test_small_logs(replay: Path, options: list[str]) -> None:
    parts: Counter[int] = Counter()
    faults: Counter[str] = Counter()

    @vary(OPTIONS.index(options))
    @examples(80)
    @given(
        log=small_logs(),
        more=st.sampled_from([0, 0.5, 1, 2] * 5 + [-1]),
        chunk=st.sampled_from([200, 500, 2000, 1 << 20] * 10 + [7]),
        engine=st.builds(AnyOrder, PICKS),
    )
    def compared(log: Log, more: float, chunk: int, engine: AnyOrder) -> None:
        """A part has at most as many lines as are needed, and more; or one less than are needed."""
        needed = max(log.needed(), 1)
        most = max(needed - 1, 1) if more < 0 else needed + int(more * needed)
        portions = Portions(most, chunk)
        faults[compare(replay, log, options, portions, engine).said.rpartition(": ")[2]] += 1
        parts[portions.parts] += 1

    compared()
    assert len({*faults}) > 5
    assert max(parts) > 3


@pytest.mark.parametrize("options", OPTIONS, ids=" ".join)
def test_large_logs(replay: Path, options: list[str]) -> None:
    parts = []

    @examples(1)
    @given(
        log=large_logs(1000 * OPTIONS.index(options), 20_000, 99_000),
        share=st.integers(2, 40),
        chunk=st.sampled_from([1 << 16, 1 << 20, 1 << 24]),
        engine=st.builds(AnyOrder, PICKS),
    )
    def compared(log: Log, share: int, chunk: int, engine: AnyOrder) -> None:
        portions = Portions(max(2 * log.needed(), 2 * len(log.lines) // share), chunk)
        assert compare(replay, log, options, portions, engine).status == 0
        parts.append(portions.parts)

    compared()
    assert max(parts) > 1


@pytest.mark.parametrize("options", OPTIONS, ids=" ".join)
def test_longer_logs(replay: Path, options: list[str]) -> None:
    """A log of more lines than a schedule has, by the reference."""
    parts = []

    @examples(1)
    @given(log=large_logs(1000 * OPTIONS.index(options), 110_000, 120_000), engine=st.builds(AnyOrder, PICKS))
    def compared(log: Log, engine: AnyOrder) -> None:
        portions = Portions(100_000, 1 << 20)
        with tempfile.TemporaryDirectory() as folder:
            got = came(replay, log.write(Path(folder)), options, portions, engine)
        assert got == by_reference(log.lines, options)
        parts.append(portions.parts)

    compared()
    assert max(parts) > 1
