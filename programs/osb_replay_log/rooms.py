"""The work directory of a run: a folder that is removed at the end."""
from __future__ import annotations

import os
import shutil
import tempfile
import time
from contextlib import ExitStack

from osb_replay_log import signals
from osb_replay_log.faults import unwritten

_TRIES = 30
"""How often a work directory is tried to be removed, in three seconds: workers may still write to it."""


def new_room(stack: ExitStack, program: str, folder: str | None) -> str:
    """A new folder in this one, or in the system's for temporary files, which is removed at the end."""
    try:
        with signals.held():
            room = tempfile.mkdtemp(prefix=f"{program}-", dir=folder)
            stack.callback(_remove, room)
    except OSError as error:
        raise unwritten(folder or "the folder for temporary files", error) from error
    return room


def _remove(room: str) -> None:
    with signals.held():
        for _ in range(_TRIES):
            shutil.rmtree(room, ignore_errors=True)
            if not os.path.exists(room):
                return
            time.sleep(0.1)
