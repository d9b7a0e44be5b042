"""Engines: what has tasks done by workers. Each may be done more than once, where a worker dies."""
from __future__ import annotations

import multiprocessing
import os
import threading
from concurrent.futures import FIRST_COMPLETED, Future, wait
from concurrent.futures.process import BrokenProcessPool, ProcessPoolExecutor
from itertools import islice
from multiprocessing.connection import wait as wait_for_end
from typing import Callable, Iterable, Iterator, Protocol, TypeVar

from osb_replay_log import signals
from osb_replay_log.faults import UNABLE, Unreplayed, reason

Given = TypeVar("Given")
Result = TypeVar("Result")

MOST_DEATHS = 3
"""How often workers may die, without a task being done in between, before it is given up."""
SECONDS = 0.2
"""How long a signal may wait."""


class Engine(Protocol):
    """Workers. It is closed at the end, and then none of them is left."""

    def each(self, task: Callable[[Given], Result], given: Iterable[Given]) -> Iterator[Result]:
        """The results of the task, for each of what is given, as they come. No more are begun than are soon worked at,
        so who stops asking stops it. What a task raises is raised.
        """

    def close(self) -> None:
        """Ends the workers."""


class Processes:
    """Processes of this machine, by the standard library."""

    def __init__(self, workers: int) -> None:
        self._workers = workers
        self._context = multiprocessing.get_context("spawn")
        self._pool: ProcessPoolExecutor | None = None

    def each(self, task: Callable[[Given], Result], given: Iterable[Given]) -> Iterator[Result]:
        """As `Engine` has it."""
        waiting, deaths = iter(given), 0
        again: list[Given] = []
        running: dict[Future[Result], Given] = {}
        while True:
            try:
                with signals.held():
                    self._begin(task, waiting, again, running)
                if not running:
                    return
                for done in self._first(running):
                    result = done.result()
                    del running[done]
                    deaths = 0
                    yield result
            except BrokenProcessPool:
                deaths += 1
                if deaths > MOST_DEATHS:
                    raise Unreplayed(UNABLE, f"workers died {deaths} times, with no task finished in between") from None
                again += running.values()
                running.clear()
                self.close()

    def _begin(
        self,
        task: Callable[[Given], Result],
        waiting: Iterator[Given],
        again: list[Given],
        running: dict[Future[Result], Given],
    ) -> None:
        """Has so many tasks run that no worker waits for one."""
        while len(running) < self._workers + 1:
            if not again:
                again += islice(waiting, 1)
            if not again:
                return
            running[self._submitted(task, again[-1])] = again[-1]
            again.pop()

    def _submitted(self, task: Callable[[Given], Result], given: Given) -> Future[Result]:
        try:
            with signals.kept_from_workers():
                if self._pool is None:
                    self._pool = ProcessPoolExecutor(self._workers, self._context, _begun)
                return self._pool.submit(task, given)
        except (OSError, ImportError, NotImplementedError) as error:  # as where /dev/shm can't be written
            raise Unreplayed(UNABLE, f"processes can't be started: {reason(error)}") from error

    @staticmethod
    def _first(running: Iterable[Future[Result]]) -> Iterable[Future[Result]]:
        """Those that are done, once there are any, or a signal has come."""
        with signals.held():
            while True:
                done = wait(running, SECONDS, FIRST_COMPLETED).done
                signals.check()
                if done:
                    return done

    def close(self) -> None:
        """Ends the processes, whatever they are at. A signal that comes meanwhile waits for it."""
        with signals.held():
            pool, self._pool = self._pool, None
            if pool is not None:
                for process in multiprocessing.active_children():
                    process.terminate()
                pool.shutdown(wait=True, cancel_futures=True)


def _begun() -> None:
    """In each worker: it ends with the program."""
    parent = multiprocessing.parent_process()
    assert parent is not None
    threading.Thread(target=_end_with, args=[parent.sentinel], daemon=True).start()


def _end_with(sentinel: int) -> None:
    wait_for_end([sentinel])
    os._exit(1)
