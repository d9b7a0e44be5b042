"""Dask as an engine (Debian: python3-distributed): its scheduler and workers on this machine, or anywhere."""
from __future__ import annotations

import asyncio
import contextlib
import logging
import multiprocessing
import os
import tempfile
import time
import zipfile
from itertools import islice
from pathlib import Path
from typing import Any, Callable, Iterable, Iterator

from osb_replay_log import signals
from osb_replay_log.engines import SECONDS, Given, Result
from osb_replay_log.faults import UNABLE, Unreplayed, reason
from osb_replay_log.schedulers import Scheduler

_SECONDS, _SECONDS_TO_REACH = 30, 10
_HERE = "127.0.0.1"
"""Nobody elsewhere reaches the scheduler and the workers."""
_NO_PAGES: dict[str, list[str]] = {f"distributed.{role}.http.routes": [] for role in ("scheduler", "worker")}
"""Settings without which every account of this machine can read what a scheduler and its workers tell of themselves."""
_TIMEOUTS = (TimeoutError, asyncio.TimeoutError)  # one, from Python 3.11 on


class Missing(Exception):
    """Dask can't be used because a package isn't installed: what happened, and what to do."""

    def __init__(self, what: str, package: str, otherwise: str = "") -> None:
        super().__init__(what, package, otherwise)
        self.what, self.package, self.otherwise = what, package, otherwise


class Dask:
    """Workers of a scheduler that runs already, or of one that is started here with so many workers, whose files are in
    the folder. Between these there is TLS, or if `is_insecure` perhaps none. Raises `Missing` if Dask isn't installed,
    or can't have TLS.
    """

    def __init__(
        self,
        scheduler: Scheduler | None,
        workers: int,
        folder: str,
        is_insecure: bool = False,
        seconds: int = _SECONDS_TO_REACH,
    ) -> None:
        try:
            import distributed
        except ImportError as error:
            raise Missing("Dask isn't installed", "python3-distributed") from error
        for name in ("distributed", "tornado", "asyncio"):
            logging.getLogger(name).setLevel(logging.CRITICAL)  # of each worker that dies they tell at length
        self._distributed, self._own = distributed, 0
        self._cluster: Any = None
        self._client: Any = None
        security = _of_this_run(distributed, is_insecure) if scheduler is None else _given(distributed, scheduler)
        try:
            if scheduler is None:
                with signals.held(), signals.kept_from_workers(), distributed.dask.config.set(_NO_PAGES):
                    self._start(workers, folder, security)
            else:
                with signals.raised():
                    self._client = _client(distributed)(
                        scheduler.address, timeout=seconds, set_as_default=False, security=security
                    )
                    self._send()
        except Exception as error:  # whatever it raises, it can't be had
            self.close()
            what = "Dask can't be started"
            if scheduler is not None:
                what = f"the scheduler {scheduler.address} can't be reached"
            raise Unreplayed(UNABLE, f"{what}: {reason(error)}") from error
        except BaseException:
            self.close()
            raise

    def _start(self, workers: int, folder: str, security: Any) -> None:
        """Starts the workers. One that dies while it starts isn't replaced, and is done without."""
        distributed = self._distributed
        multiprocessing.get_context("spawn").Lock()  # a worker has some: where there can't be one, Dask tells no reason
        self._cluster = distributed.LocalCluster(
            n_workers=0,
            threads_per_worker=1,
            processes=True,
            memory_limit=0,
            host=_HERE,
            security=security,
            dashboard_address=None,
            scheduler_kwargs={"dashboard_address": f"{_HERE}:0"},
            worker_dashboard_address=f"{_HERE}:0",
            silence_logs=logging.CRITICAL,
            local_directory=folder,
        )
        self._client = _client(distributed)(self._cluster, timeout=_SECONDS, set_as_default=False)
        self._cluster.scale(workers)
        self._own = workers
        until = time.monotonic() + _SECONDS
        while len(self._client.nthreads()) < workers and time.monotonic() < until:
            signals.check()
            time.sleep(SECONDS)
        if not self._client.nthreads():
            raise OSError("no worker has started")

    def _send(self) -> None:
        """The package, for workers that haven't got it."""
        package = Path(__file__).parent
        with tempfile.TemporaryDirectory() as folder:
            path = os.path.join(folder, f"{package.name}.zip")
            with zipfile.ZipFile(path, "w") as file:
                for module in sorted(package.glob("*.py")):
                    file.write(module, f"{package.name}/{module.name}")
            self._client.upload_file(path)

    def each(self, task: Callable[[Given], Result], given: Iterable[Given]) -> Iterator[Result]:
        """As `Engine` has it. The scheduler has done again what a worker that died has left."""
        waiting = iter(given)
        running: set[Any] = set()
        try:
            while True:
                with signals.held():
                    threads = max(sum(self._client.nthreads().values()), self._own)
                    for argument in islice(waiting, max(threads + 1 - len(running), 0)):
                        running.add(self._client.submit(task, argument, pure=False))
                    if not running:
                        return
                    done = self._first(running)
                    running -= done
                    results = [future.result() for future in done]
                    done.clear()
                yield from results
        except self._distributed.KilledWorker as error:
            raise Unreplayed(UNABLE, f"workers died again and again: {error}") from None

    def _first(self, running: set[Any]) -> set[Any]:
        """Those that are done, once there are any or a signal has come. A lost last worker is seen after a while."""
        until = time.monotonic() + _SECONDS
        while True:
            with contextlib.suppress(*_TIMEOUTS), self._client.as_current():
                return set(self._distributed.wait(running, SECONDS, "FIRST_COMPLETED").done)
            signals.check()
            if time.monotonic() > until:
                if not self._client.nthreads():
                    raise Unreplayed(UNABLE, "no worker is left")
                until = time.monotonic() + _SECONDS

    def close(self) -> None:
        """Ends the scheduler and the workers that were started here. A signal that comes meanwhile waits for it."""
        with signals.held():
            is_own = self._cluster is not None
            for part in (self._client, self._cluster):
                if part is not None:
                    with contextlib.suppress(Exception):  # what can't be told to end is killed
                        part.close(timeout=_SECONDS_TO_REACH)
            self._client = self._cluster = None
            if is_own:
                _kill_all()


def _kill_all() -> None:
    """Whatever is left of the workers: one that dies while all are ended may be started once more."""
    until = time.monotonic() + _SECONDS_TO_REACH
    while multiprocessing.active_children() and time.monotonic() < until:
        for process in multiprocessing.active_children():
            process.kill()
            process.join(1)
        time.sleep(SECONDS)


def _client(distributed: Any) -> Any:
    """Clients of which one that never reached its scheduler is forgotten at once: Dask's would wait for it to end."""
    return type("Client", (distributed.Client,), {"__del__": lambda _self: None})


def _of_this_run(distributed: Any, is_insecure: bool) -> Any:
    """TLS with keys that are made for this run. Without it, every account of this machine could have the workers run
    a program, so there is none only if `is_insecure`.
    """
    try:
        return distributed.security.Security.temporary()
    except ImportError as error:
        if is_insecure:
            return None
        raise Missing(
            "Dask would run without TLS, because python3-cryptography isn't installed",
            "python3-cryptography",
            ", or pass --engine processes. Without TLS, every account of this machine can run programs as you. If you "
            "accept that, pass --engine dask --insecure",
        ) from error


def _given(distributed: Any, scheduler: Scheduler) -> Any:
    """TLS with the scheduler's files, and no connection without it; None, which is no TLS, if it has no files."""
    if scheduler.tls is None:
        return None
    ca, cert, key = scheduler.tls
    return distributed.security.Security(
        require_encryption=True, tls_ca_file=ca, tls_client_cert=cert, tls_client_key=key
    )
