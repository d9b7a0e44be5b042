"""What isn't done is raised, with its status and what that means."""
from __future__ import annotations

from typing import Any, Callable

from osb._lib import lib
from osb._texts import written
from osb.enums import Status

# The refusals that only a request of a binding meets.
_OF_BINDINGS = (Status.REFUSED_BINDING, Status.REFUSED_APP)


class OsbError(Exception):
    """A call that wasn't done, and has changed nothing. `status` says why."""

    def __init__(self, status: int, about: str = "") -> None:
        self.status = Status(status)
        said = f"{self.status.name}: {self.status.meaning}"
        super().__init__(f"{about}: {said}" if about else said)


class Refusal(OsbError):
    """A request that a broker refuses before it looks at any instance, with the answer to send.

    `http_status` and `body` are that answer's. The status is one of REFUSED_TARGET to REFUSED_SPACE,
    REFUSED_MAINTENANCE, REFUSED_BINDING, REFUSED_APP, REFUSED_NUMBER, or MEMORY for an out-of-memory error.
    """

    def __init__(self, status: int) -> None:
        super().__init__(status)
        if self.status in _OF_BINDINGS:
            self.http_status = int(lib.osb_binding_refusal_status(self.status))
            done, self.body = written(lib.osb_binding_refusal_body, self.status)
        elif self.status == Status.REFUSED_NUMBER:
            self.http_status = int(lib.osb_update_refusal_status(self.status))
            done, self.body = written(lib.osb_update_refusal_body, self.status)
        else:
            self.http_status = int(lib.osb_refusal_status(self.status))
            done, self.body = written(lib.osb_refusal_body, self.status)
        if done != Status.DONE:
            raise OsbError(done)


def check(status: int) -> None:
    """Raises what stands for this status, if the call wasn't done."""
    if status == Status.DONE:
        return
    is_refused = Status.REFUSED_TARGET <= status <= Status.REFUSED_SPACE or status == Status.REFUSED_MAINTENANCE
    if is_refused or status in _OF_BINDINGS or status == Status.REFUSED_NUMBER:
        raise Refusal(status)
    raise OsbError(status)


def text_of(call: Callable[..., int], *given: Any) -> bytes:
    """The text that a call writes, or else what its status stands for is raised."""
    status, text = written(call, *given)
    check(status)
    return text


def found(nothing: Status, call: Callable[..., int], *given: Any) -> str | None:
    """The text that a call writes, None if its status is the one for nothing, or else what its status stands for is
    raised.
    """
    status, text = written(call, *given)
    if status == nothing:
        return None
    check(status)
    return text.decode()
