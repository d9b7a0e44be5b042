"""A small broker: instances exist in memory. It doesn't know the standard well."""
from __future__ import annotations

import json
import threading
import time
from collections.abc import Iterator
from contextlib import contextmanager
from http.server import BaseHTTPRequestHandler, ThreadingHTTPServer

_PLAN = {"id": "plan", "name": "small", "description": "A plan"}
_SERVICE: dict[str, object] = {
    "id": "service",
    "name": "things",
    "description": "A service",
    "bindable": False,
    "plans": [_PLAN],
}
CATALOG: dict[str, object] = {"services": [_SERVICE]}


class SmallBroker:
    """The broker, at `url` while `running`."""

    def __init__(
        self, delete: int = 200, seconds: float = 0.0, talks: bool = False, deletions: tuple[int, ...] = ()
    ) -> None:
        """`delete`: the status of each deletion of what exists. `seconds`: how long each answer takes. `talks`: its
        errors repeat the login. `deletions`: the statuses of the first deletions, whatever exists.
        """
        self.delete, self.seconds, self.talks, self.deletions = delete, seconds, talks, [*deletions]
        self.instances: set[str] = set()
        self.url = ""

    @contextmanager
    def running(self) -> Iterator[SmallBroker]:
        broker = self

        class Handler(BaseHTTPRequestHandler):
            protocol_version = "HTTP/1.1"
            wbufsize = -1  # an answer is one write: otherwise TCP may hold back its body

            def do_GET(self) -> None:
                self._answer(200, CATALOG if self.path == "/v2/catalog" else {"state": "succeeded"})

            def do_PUT(self) -> None:
                self.rfile.read(int(self.headers["Content-Length"]))
                broker.instances.add(self._instance())
                self._answer(201, {})

            def do_DELETE(self) -> None:
                if broker.deletions:
                    self._answer(broker.deletions.pop(0), {})
                    return
                if self._instance() not in broker.instances:
                    self._answer(410, {})
                    return
                if broker.delete == 200:
                    broker.instances.remove(self._instance())
                self._answer(broker.delete, {})

            def _instance(self) -> str:
                return self.path.split("?")[0].rsplit("/", 1)[1]

            def _answer(self, status: int, body: object) -> None:
                time.sleep(broker.seconds)
                if broker.talks and status >= 400:
                    body = {"description": f"who is {self.headers['Authorization']}?"}
                text = json.dumps(body).encode()
                self.send_response(status)
                self.send_header("Content-Type", "application/json")
                self.send_header("Content-Length", str(len(text)))
                self.end_headers()
                self.wfile.write(text)

            def log_message(self, format: str, *args: object) -> None:
                pass

        server = ThreadingHTTPServer(("127.0.0.1", 0), Handler)
        server.daemon_threads = True
        thread = threading.Thread(target=server.serve_forever, args=[0.01])
        thread.start()
        self.url = f"http://127.0.0.1:{server.server_port}"
        try:
            yield self
        finally:
            server.shutdown()
            thread.join()
            server.server_close()
