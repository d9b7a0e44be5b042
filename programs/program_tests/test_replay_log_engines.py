"""Workers that die, what they raise, and how many tasks are begun; progress."""
from __future__ import annotations

import importlib.util
import multiprocessing
import os
import signal
import tempfile
import time
import unittest
import urllib.error
import urllib.request
import warnings
from contextlib import closing, redirect_stderr
from io import StringIO
from itertools import islice
from pathlib import Path
from typing import Iterator

import pytest
from osb_replay_log.dask_engine import Dask
from osb_replay_log.engines import MOST_DEATHS, Engine, Processes
from osb_replay_log.faults import Unreplayed
from osb_replay_log.progress import Progress, bar, clock
from osb_replay_log.schedulers import Scheduler

pytestmark = pytest.mark.slow


def double(number: int) -> int:
    return 2 * number


def fail(number: int) -> int:
    if number == 3:
        raise Unreplayed(3, f"number {number}")
    return number


def die(given: tuple[str, int, int]) -> int:
    """The worker dies, up to so many times."""
    folder, number, times = given
    for time_ in range(times if number % 4 == 0 else 0):
        try:
            os.mkdir(f"{folder}/{number}-{time_}")
        except FileExistsError:
            continue
        os.kill(os.getpid(), signal.SIGKILL)
    return number


def pages(_: int) -> list[int]:
    """The ports for browsers: the worker's, and its scheduler's."""
    import distributed

    with distributed.worker_client() as client:
        its = client.scheduler_info()
    return [its["services"]["dashboard"], distributed.get_worker().http_server.port]


class EngineCases:
    """What both engines have to be right in."""

    def engine(self) -> Engine:
        raise NotImplementedError

    def check(self, case: unittest.TestCase) -> None:
        begun: list[int] = []

        def given() -> Iterator[int]:
            for number in range(1000):
                begun.append(number)
                yield number

        with closing(self.engine()) as engine:
            case.assertEqual(sorted(engine.each(double, range(50))), list(range(0, 100, 2)))
            case.assertEqual(list(engine.each(double, [])), [])
            with case.assertRaises(Unreplayed) as raised:
                list(engine.each(fail, given()))
            case.assertEqual((raised.exception.status, raised.exception.said), (3, "number 3"))
            case.assertLess(len(begun), 200)  # how soon the failure is seen depends on the machine
            begun.clear()
            for taken, _ in enumerate(engine.each(double, islice(given(), 100))):
                case.assertLess(len(begun) - taken, 20)
            with tempfile.TemporaryDirectory() as folder:
                found = engine.each(die, [(folder, number, 1) for number in range(10)])
                case.assertEqual(sorted(found), list(range(10)))
                case.assertEqual(len(list(Path(folder).iterdir())), 3)
            with tempfile.TemporaryDirectory() as folder:
                with case.assertRaisesRegex(Unreplayed, "died"):
                    list(engine.each(die, [(folder, 0, MOST_DEATHS + 1)]))


class ProcessesTest(unittest.TestCase, EngineCases):
    def engine(self) -> Engine:
        return Processes(2)

    def test_workers(self) -> None:
        self.check(self)
        self.assertEqual(multiprocessing.active_children(), [])

    def test_left_early(self) -> None:
        """Where nobody asks for more, closing ends what runs."""
        engine = Processes(2)
        found = engine.each(time.sleep, [0.0, 600.0, 600.0])
        next(found)
        begun = time.monotonic()
        engine.close()
        self.assertLess(time.monotonic() - begun, 60)
        self.assertEqual(multiprocessing.active_children(), [])


@pytest.mark.alone  # Dask gives up a worker that a busy machine restarts too slowly
@pytest.mark.skipif(
    not all(map(importlib.util.find_spec, ["distributed", "cryptography"])),
    reason="Dask isn't installed with TLS (Debian: python3-distributed python3-cryptography)",
)
class DaskTest(unittest.TestCase, EngineCases):
    def engine(self) -> Engine:
        return Dask(None, 2, self.folder)

    def test_workers(self) -> None:
        self.check(self)

    def setUp(self) -> None:
        warned = warnings.catch_warnings()  # Debian's Dask and its tornado warn of each other
        warned.__enter__()
        self.addCleanup(warned.__exit__, None, None, None)
        warnings.simplefilter("ignore")
        folder = tempfile.TemporaryDirectory()
        self.addCleanup(folder.cleanup)
        self.folder = folder.name

    def test_no_pages(self) -> None:
        """What Dask shows to browsers, without a password, isn't there."""
        with closing(self.engine()) as engine:
            ports = {port for its in engine.each(pages, [0]) for port in its}
            self.assertEqual(len(ports), 2)
            for port in ports:
                for path in ("/health", "/metrics", "/json/identity.json", "/info/main/workers.html"):
                    with self.assertRaises(urllib.error.HTTPError) as raised:
                        urllib.request.urlopen(f"http://127.0.0.1:{port}{path}", timeout=10)
                    self.assertEqual(raised.exception.code, 404)
                    raised.exception.close()

    def test_no_scheduler(self) -> None:
        with self.assertRaisesRegex(Unreplayed, "scheduler tcp://127.0.0.1:1 can't be reached"):
            Dask(Scheduler("tcp://127.0.0.1:1"), 1, self.folder, seconds=1)


class ProgressTest(unittest.TestCase):
    def test_told(self) -> None:
        """It tells of a terminal alone, now and then, and takes the line away."""
        said = StringIO()
        with redirect_stderr(said):
            silent, shown = Progress(), Progress(True)
            silent.tell("replayed", 5, 10, True)
            silent.end()
            shown.tell("replayed", 5, 10, True)
            self.assertEqual(said.getvalue(), "")
            time.sleep(0.25)
            shown.tell("replayed", 5000, 10000, False)
            shown.tell("replayed", 5001, 10000, False)
            shown.end()
        told = "replayed [##########          ] 5,000 of about 10,000 lines, 0:00 left"
        self.assertEqual(said.getvalue(), f"\r{told}\x1b[K\r\x1b[K")

    def test_bar(self) -> None:
        """It is full only once all is done, and never longer."""
        cases = ((0, 9), (1, 40), (99, 100), (7, 7), (9, 7), (0, 0))
        self.assertEqual([bar(*case).count("#") for case in cases], [0, 0, 19, 20, 20, 0])

    def test_clock(self) -> None:
        self.assertEqual([clock(seconds) for seconds in (0.4, 59.6, 61, 3661)], ["0:00", "1:00", "1:01", "1:01:01"])
