"""The program osb-platform: its commands over a store, and its page."""
from __future__ import annotations

import contextlib
import http.client
import json
import os
import re
import subprocess
from pathlib import Path
from typing import Iterator, NamedTuple

from commands import printed

TOP = Path(__file__).resolve().parents[2]
PROGRAM = str(TOP / "osb-platform")


def run(store: Path, *arguments: str) -> str:
    """Runs a command over a store, and returns what it prints."""
    return printed([PROGRAM, *arguments, "--store", store], environment=_environment(store))


@contextlib.contextmanager
def serving(store: Path, *options: str) -> Iterator[str]:
    """The URL of the page of a store, at a free port, until the end of the block."""
    line = [PROGRAM, "serve", "--store", str(store), "--page", "127.0.0.1:0", *options]
    with subprocess.Popen(
        line, env=_environment(store), stdin=subprocess.DEVNULL, stderr=subprocess.PIPE, text=True
    ) as process:
        try:
            yield _url(process)
        finally:
            process.kill()


def _environment(store: Path) -> dict[str, str]:
    """One in which no key and no configuration of this account is found."""
    return {**os.environ, "HOME": str(store.parent), "XDG_STATE_HOME": str(store.parent)}


def _url(process: subprocess.Popen[str]) -> str:
    """Where the page is, once it is served. The rest of the log isn't read: the program doesn't wait for a reader."""
    assert process.stderr is not None
    lines: list[str] = []
    for line in process.stderr:
        lines.append(line)
        logged = json.loads(line) if line.startswith("{") else {}
        if logged.get("event") == "serving":
            return str(logged["page"]) + "/"
    raise AssertionError(f"it has ended with {process.wait()}: {''.join(lines)}")


class Got(NamedTuple):
    """An answer of the page."""

    status: int
    text: str
    headers: dict[str, str]

    def ids(self) -> list[str]:
        """The ids of the list, in its order."""
        return re.findall(r'id="i-([0-9a-f-]{36})"', self.text)

    def link(self, id: str) -> str | None:
        """Where the link of this id leads."""
        found = re.search(f'href="([^"]*)" id="{id}"', self.text)
        return None if found is None else found[1].replace("&amp;", "&")


def get(url: str, target: str = "/", host: str | None = None) -> Got:
    """What the page answers to a request, for this Host or for its own."""
    own = url[len("http://") : -1]
    with contextlib.closing(http.client.HTTPConnection(own, timeout=60)) as connection:
        connection.request("GET", target, headers={"Host": own if host is None else host})
        response = connection.getresponse()
        return Got(response.status, response.read().decode(), dict(response.getheaders()))
