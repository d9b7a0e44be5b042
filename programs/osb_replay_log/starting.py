"""Starts a program in Python. Signals are seen to before anything else is loaded."""
from __future__ import annotations

import importlib
import os
import sys

from osb_replay_log import signals
from osb_replay_log.faults import shown


def start(program: str, package: str) -> None:
    """Runs the commands of a package with the arguments of this process, and ends the process."""
    ended = _run(program, package)
    signals.end()
    sys.exit(ended)


def _run(program: str, package: str) -> int:
    signals.begin()
    _open_all()
    try:
        with signals.raised():
            commands = importlib.import_module(f"{package}.commands")
        return int(commands.run(sys.argv[1:]))
    except signals.Interrupted:
        return 1  # it dies of the signal
    except MemoryError:
        return refuse(program, 5, "out of memory")
    except Exception as error:
        return refuse(program, 70, f"{type(error).__name__}: {error}")


def _open_all() -> None:
    """Where standard output or error is closed, no file that is opened later gets its number."""
    while os.open(os.devnull, os.O_RDWR) <= 2:
        pass
    sys.stderr = sys.stderr or open(os.devnull, "w", encoding="utf-8")


def refuse(program: str, status: int, said: str) -> int:
    """Reports why the program ends, and returns the exit status."""
    print(f"{program}: {shown(said)}", file=sys.stderr)
    return status
