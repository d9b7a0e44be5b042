"""Why a log isn't replayed: what is told of it, and the exit status."""
from __future__ import annotations

FAULTY, UNREAD, UNWRITTEN, NO_MEMORY, UNABLE, UNUSABLE = 1, 3, 4, 5, 70, 78
"""The statuses of `osb-replay`, that of what can't be run at all, and that of what has to be changed first."""


class Unreplayed(Exception):
    """It ends the program with the status, and is told on standard error. A worker's goes to who has asked for it."""

    def __init__(self, status: int, said: str) -> None:
        super().__init__(status, said)
        self.status, self.said = status, said


def unread(path: str, error: object) -> Unreplayed:
    """A read failed of a file, which is named."""
    return Unreplayed(UNREAD, f"{path}: read failed: {reason(error)}")


def unwritten(path: str, error: object) -> Unreplayed:
    """A write failed below a folder, which is named."""
    return Unreplayed(UNWRITTEN, f"{path}: write failed: {reason(error)}")


def shown(text: str) -> str:
    """The text for a terminal, on one line. Each character that isn't printable is escaped, as in `\\x1b` or `\\u202e`.

    A log and the names of files have what others have written. So their control characters, those that change the
    direction of a text, and line feeds don't reach the terminal.
    """
    return "".join(letter if letter.isprintable() else letter.encode("unicode_escape").decode() for letter in text)


def reason(error: object) -> str:
    """An error in a word, without the path that stands before it."""
    said = error.strerror if isinstance(error, OSError) else None
    return str(said or error or type(error).__name__)
