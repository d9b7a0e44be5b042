"""Two instances, by both sides. The answer to the first Provision is lost, so the platform deletes the instance; the
second instance becomes ready. Each side keeps one value for each instance, and requests and answers are written and
read as HTTP and JSON have them. It prints what examples/c/story.out has. LIBOSB names the library if the system doesn't
find it.
"""
from __future__ import annotations

from osb import Answer, Holding, Id, Mode, Outcome, Record, Request, Work
from osb.wire import (
    Names,
    read_answer,
    receive_request,
    write_answer,
    write_method,
    write_named_body,
    write_named_target,
)

SERVICE = Id.of("00000000-0000-0000-0000-0000000000a0")
PLAN = Id.of("00000000-0000-0000-0000-0000000000b1")
MODE = Mode.SYNC  # how the plan works, as the broker's catalogue has it

Sent = tuple[str, bytes, bytes]  # a request as HTTP has it: the method, the target and the body
Given = tuple[int, bytes]  # an answer: the status and the body


class Story:
    """One instance: what the platform keeps, and what the broker keeps. A real program writes each value to its
    database where this one prints a line.
    """

    record: Record
    holding: Holding = Holding.NONE

    def __init__(self, text: str) -> None:
        self.id = Id.of(text)
        print(f"instance {self.id}")

    def step(self, who: str, what: str) -> None:
        """Prints a step, and what both sides keep after it."""
        print(f"{who:9} {what:21} record {self.record.state:9} holding {held(self.holding)}")

    def create(self) -> Request:
        """Creates the instance's record, and returns its Provision."""
        self.record, request = Record.create(self.id, SERVICE, PLAN, False)
        return request

    def due(self) -> Request:
        """Returns the request that is due."""
        self.record, request = self.record.send(self.id)
        return request

    def send(self, request: Request) -> Sent:
        """Writes a request. Its record is stored before the request is sent."""
        names = Names(str(request.id), str(request.service), str(request.plan))
        method, target = write_method(request.kind), write_named_target(request, names)
        self.step("platform", f"sends {method}")
        return method, target.encode(), write_named_body(request.kind, names, "an organization", "a space")

    def handle(self, sent: Sent) -> Given:
        """The broker: the work that is due is stored before it begins, and its end before the answer is sent."""
        method, target, body = sent
        row = self.holding.row
        asked = receive_request(method, target, body, 1000).asked
        request = asked.request(None if row is None else (row.service, row.plan))
        self.holding, begun = self.holding.begin(MODE, request)
        if isinstance(begun, Answer):
            return begun.status, write_answer(begun)
        self.step("broker", "stores the work")
        self.holding, answer = self.holding.end(MODE, Outcome.DONE)
        self.step("broker", {Work.MAKE: "creates the resource", Work.DELETE: "deletes the resource"}[begun])
        return answer.status, write_answer(answer)

    def exchange(self, request: Request) -> None:
        """Sends a request, and takes the answer under the request's number."""
        attempt = self.record.attempt
        status, body = self.handle(self.send(request))
        answer = read_answer(request.kind, status, body)
        if answer is None:
            self.time_out()
            return
        self.record = self.record.answer(attempt, answer)
        self.step("platform", f"receives {status}")

    def time_out(self) -> None:
        """Gives up the request in flight."""
        self.record = self.record.timeout(self.record.attempt)
        self.step("platform", "times out")


def held(holding: Holding) -> str:
    """The state of a holding in one word."""
    if holding.work is not None:
        return "pending"
    if holding.row is not None:
        return str(holding.row.phase)
    return "tombstone" if holding.has_tombstone else "empty"


lost = Story("00000000-0000-0000-0000-000000000001")
status, _ = lost.handle(lost.send(lost.create()))
lost.step("network", f"loses the answer {status}")
lost.time_out()
lost.exchange(lost.due())

good = Story("00000000-0000-0000-0000-000000000002")
good.exchange(good.create())
