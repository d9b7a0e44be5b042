"""Customers of a broker, who write down what they were answered."""
from __future__ import annotations

import base64
import http.client
import json
import threading
import time
from random import Random
from typing import Any, NamedTuple

SERVICE = "00000000-0000-0000-0000-0000000000a0"
AT_ONCE, BY_WORKER = "00000000-0000-0000-0000-0000000000b1", "00000000-0000-0000-0000-0000000000b2"
PASSWORD = "secret of the customers"
_HEADERS = {
    "Authorization": "Basic " + base64.b64encode(f"platform:{PASSWORD}".encode()).decode(),
    "X-Broker-API-Version": "2.17",
    "Content-Type": "application/json",
}


class Answer(NamedTuple):
    status: int
    body: Any


class Broker:
    """A broker at a port, over a connection of its own."""

    def __init__(self, port: int) -> None:
        self._connection = http.client.HTTPConnection("127.0.0.1", port, timeout=30)

    def ask(self, method: str, path: str, body: Any = None) -> Answer:
        text = None if body is None else json.dumps(body)
        self._connection.request(method, f"/v2/service_instances/{path}", text, _HEADERS)
        given = self._connection.getresponse()
        return Answer(given.status, json.loads(given.read()))

    def close(self) -> None:
        self._connection.close()

    def polled(self, path: str) -> Answer:
        """The answer to the first Poll that isn't in progress."""
        while True:
            answer = self.ask("GET", f"{path}/last_operation")
            if answer.body.get("state") != "in progress":
                return answer
            time.sleep(0.005)


GONE = "gone"
Known = Any
"""What was answered of an instance or a binding: `GONE`, the object of a binding, or an empty object of an instance."""


class Facts:
    """What the customers know for sure: a key is left out while a request is on its way."""

    def __init__(self) -> None:
        self._lock = threading.Lock()
        self._known: dict[str, Known] = {}

    def forget(self, key: str) -> None:
        with self._lock:
            self._known.pop(key, None)

    def learn(self, key: str, what: Known) -> None:
        with self._lock:
            self._known[key] = what

    def now(self) -> dict[str, Known]:
        with self._lock:
            return dict(self._known)


class Customer(threading.Thread):
    """Creates instances, binds some of them, and deletes some of both, until it is stopped."""

    def __init__(self, number: int, port: int, facts: Facts, stop: threading.Event) -> None:
        super().__init__(daemon=True)
        self._draw, self._broker = Random(number), Broker(port)
        self._number, self._facts, self._stop_set = number, facts, stop
        self.error: Exception | None = None

    def run(self) -> None:
        try:
            count = 0
            while not self._stop_set.is_set():
                count += 1
                self._live(f"{self._number}-{count}")
        except Exception as error:
            self.error = error
        finally:
            self._broker.close()

    def _live(self, instance: str) -> None:
        plan = self._draw.choice([AT_ONCE, AT_ONCE, BY_WORKER])
        names = {"service_id": SERVICE, "plan_id": plan}
        self._do("PUT", instance, {**names, "organization_guid": "o", "space_guid": "s"})
        bound = f"{instance}/service_bindings/b"
        is_bound = self._draw.random() < 0.5
        if is_bound:
            self._do("PUT", bound, names)
        if self._draw.random() < 0.6:
            query = f"?service_id={SERVICE}&plan_id={plan}"
            if is_bound:
                self._do("DELETE", bound, None, query)
            self._do("DELETE", instance, None, query)

    def _do(self, method: str, path: str, body: Any, query: str = "?") -> None:
        self._facts.forget(path)
        answer = self._broker.ask(method, f"{path}{query}&accepts_incomplete=true", body)
        if answer.status == 202:
            answer = self._broker.polled(path)
            assert answer.status in (200, 410) and answer.body.get("state") != "failed", answer
        else:
            assert answer.status in (200, 201), answer
        self._facts.learn(path, GONE if method == "DELETE" else answer.body if "/" in path else {})
