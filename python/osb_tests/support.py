"""What the tests share: ids and requests."""
from __future__ import annotations

import base64
import hashlib
from typing import Callable

from osb import Id, Kind, OsbError, Request, Status
from osb.wire import Names

ONE = Id.of("00000000-0000-0000-0000-000000000001")
TWO = Id.of("00000000-0000-0000-0000-000000000002")
SERVICE = Id.of("00000000-0000-0000-0000-0000000000a0")
SYNC = Id.of("00000000-0000-0000-0000-0000000000b1")
ASYNC = Id.of("00000000-0000-0000-0000-0000000000b2")
USER, PASSWORD = "platform", "a password: with a colon"


def request(kind: Kind, plan: Id = SYNC, accepts: bool = True, id: Id = ONE) -> Request:
    return Request(kind, accepts, id, SERVICE, plan)


def hashed(text: str) -> Id:
    """The number of a text that is no GUID in lower case: the first 128 bits of its SHA-256."""
    digest = hashlib.sha256(text.encode()).digest()
    return Id(int.from_bytes(digest[:8], "big"), int.from_bytes(digest[8:16], "big"))


def guids(asked: Request) -> Names:
    """The texts of ids that are GUIDs in lower case."""
    return Names(str(asked.id), str(asked.service), str(asked.plan))


def status_of(call: Callable[[], object]) -> Status | None:
    """Why the library doesn't do the call, or None if it does."""
    try:
        call()
    except OsbError as error:
        return error.status
    return None


def authorization(user: str = USER, password: str = PASSWORD) -> str:
    return "Basic " + base64.b64encode(f"{user}:{password}".encode()).decode()
