"""Signals that end the program. The first one that comes is remembered, and raised only where that leaves nothing
behind; what is cleaned up meanwhile isn't disturbed, and in the end the program dies of it.
"""
from __future__ import annotations

import os
import signal
from contextlib import contextmanager
from multiprocessing import resource_tracker
from typing import Iterator

_ENDING = (signal.SIGINT, signal.SIGTERM, signal.SIGHUP)


class Interrupted(BaseException):
    """A signal has come that ends the program."""


class _State:
    come: int | None = None
    is_raised = False
    may_raise = False


def begin() -> None:
    """From here on signals are seen to; but none that was ignored when the program was started, as `nohup` does."""
    for number in _ENDING:
        if signal.getsignal(number) is not signal.SIG_IGN:
            signal.signal(number, _come)


def _come(number: int, _frame: object) -> None:
    if _State.come is None:
        _State.come = number
    if _State.may_raise:
        check()


def check() -> None:
    """Raises what has come, once."""
    if _State.come is not None and not _State.is_raised:
        _State.is_raised = True
        raise Interrupted(_State.come)


@contextmanager
def raised() -> Iterator[None]:
    """In here a signal is raised at once."""
    with _set(True):
        check()
        yield


@contextmanager
def held() -> Iterator[None]:
    """In here none is raised, unless by `check`."""
    with _set(False):
        yield


@contextmanager
def _set(may_raise: bool) -> Iterator[None]:
    before, _State.may_raise = _State.may_raise, may_raise
    try:
        yield
    finally:
        _State.may_raise = before


@contextmanager
def kept_from_workers() -> Iterator[None]:
    """What is started in here never has the signals that a terminal sends to all: it is the program that ends its
    workers. A process or a thread has the mask of the thread that has started it.
    """
    kept = [signal.SIGINT, signal.SIGHUP]
    before = signal.pthread_sigmask(signal.SIG_BLOCK, kept)
    try:
        resource_tracker.ensure_running()  # it would let SIGINT through, when a worker is the first to need it
        signal.pthread_sigmask(signal.SIG_BLOCK, kept)
        yield
    finally:
        signal.pthread_sigmask(signal.SIG_SETMASK, before)


def end() -> None:
    """Dies of the signal that has come, if one has."""
    if _State.come is not None:
        signal.signal(_State.come, signal.SIG_DFL)
        os.kill(os.getpid(), _State.come)
