"""How many requests a broker answers in a second, and how much memory it takes: `bench/run`.

wrk (Debian: apt-get install wrk) lets some processes of osb-broker create instances, in runs of some seconds until
there are enough. Then it asks for their last operations. The broker sells folders, and its store is a file of SQLite,
or with --store a database of PostgreSQL.
"""
from __future__ import annotations

import argparse
import base64
import contextlib
import json
import os
import re
import signal
import socket
import subprocess
import tempfile
import time
import urllib.request
from pathlib import Path
from typing import Iterator, NamedTuple

_TOP = str(Path(__file__).resolve().parents[1])
_ASK = str(Path(__file__).with_name("ask.lua"))
_LOGIN = "Basic " + base64.b64encode(b"platform:secret").decode()
_NAMED = json.dumps(
    {
        "service_id": "00000000-0000-0000-0000-0000000000a0",
        "plan_id": "00000000-0000-0000-0000-0000000000b1",
        "organization_guid": "o",
        "space_guid": "s",
    }
)


class Ran(NamedTuple):
    """What came of a run of wrk."""

    answers: int
    wrong: int
    """Those that had no 2xx, and those that never came."""
    seconds: float
    processor: float
    """The seconds of processor time that the brokers took."""


class Brokers:
    """Some brokers at one address, over one store."""

    def __init__(self, running: list[subprocess.Popen[bytes]], port: int, asked: argparse.Namespace) -> None:
        self._running, self._asked = running, asked
        self._url = f"http://127.0.0.1:{port}"

    def ask(self, kind: str, count: int) -> Ran:
        """Has wrk ask for `creations` from this number on, or for `polls` of the first so many."""
        asked = self._asked
        line = [
            "wrk",
            "-t1",
            f"-c{asked.connections}",
            f"-d{asked.seconds}s",
            "--timeout",
            "30s",
            "-s",
            _ASK,
            self._url,
            "--",
            kind,
            str(count),
            _LOGIN,
            _NAMED,
        ]
        before = self._processor()
        said = subprocess.run(line, check=True, capture_output=True, text=True).stdout
        found = re.search(r"^answers (\d+) (\d+) (\d+) (\d+)$", said, re.MULTILINE)
        assert found is not None, said
        answers, refused, failed, microseconds = map(int, found.groups())
        return Ran(answers, refused + failed, microseconds / 1e6, self._processor() - before)

    def megabytes(self) -> float:
        """What all of them hold in memory."""
        return sum(_resident(program.pid) for program in self._running) / 1024

    def _processor(self) -> float:
        return sum(_processor(program.pid) for program in self._running)


@contextlib.contextmanager
def brokers(asked: argparse.Namespace) -> Iterator[Brokers]:
    """Started, and ended at the end of the block."""
    with tempfile.TemporaryDirectory() as folder, contextlib.ExitStack() as stack:
        port = _free_port()
        program = f"{_TOP}/osb-broker"
        subprocess.run([program, "--help"], check=True, stdout=subprocess.DEVNULL)  # builds it, if it must be built
        line = [program, "serve", "--state", folder, "--share-port", "--listen", f"127.0.0.1:{port}"]
        line += ["--store", asked.store] if asked.store else []
        log = stack.enter_context(open(Path(folder) / "log", "ab"))
        running = []
        for _ in range(asked.brokers):
            running.append(subprocess.Popen(line, env={**os.environ, "OSB_BROKER_PASSWORD": "secret"}, stderr=log))
            stack.callback(_end, running[-1])
            _wait_for(port)
        yield Brokers(running, port, asked)


def _free_port() -> int:
    with socket.socket() as probe:
        probe.bind(("127.0.0.1", 0))
        port: int = probe.getsockname()[1]
        return port


def _wait_for(port: int) -> None:
    for _ in range(100):
        with contextlib.suppress(OSError), urllib.request.urlopen(f"http://127.0.0.1:{port}/healthz", timeout=5):
            return
        time.sleep(0.1)
    raise SystemExit("the broker doesn't answer")


def _end(broker: subprocess.Popen[bytes]) -> None:
    broker.send_signal(signal.SIGTERM)
    broker.wait()


def _resident(process: int) -> int:
    status = Path(f"/proc/{process}/status").read_text(encoding="ascii")
    found = re.search(r"^VmRSS:\s*(\d+) kB$", status, re.MULTILINE)
    assert found is not None
    return int(found[1])


def _processor(process: int) -> float:
    """How many seconds of processor time it has had."""
    after_its_name = Path(f"/proc/{process}/stat").read_text(encoding="ascii").rpartition(")")[2].split()
    return sum(map(int, after_its_name[11:13])) / os.sysconf("SC_CLK_TCK")


def _told(what: str, ran: Ran) -> str:
    return (
        f"{ran.answers / ran.seconds:.0f} {what} a second, {ran.wrong} wrong, {ran.processor * 1000 / ran.answers:.2f} "
        "ms of processor time each"
    )


def _load(asked: argparse.Namespace) -> None:
    with brokers(asked) as served:
        made = next = first = 0
        while made < asked.creations:
            ran = served.ask("creations", next)
            made, next = made + ran.answers, next + ran.answers + asked.connections  # those are dropped at the end
            first = first or max(1, ran.answers - asked.connections)  # some of the last were never asked for
            print(f"{_told('creations', ran)}; {made} made, the brokers take {served.megabytes():.0f} MB", flush=True)
        ran = served.ask("polls", first)
        print(_told("polls", ran), flush=True)


def main() -> None:
    """Loads the brokers, and prints what came of it."""
    parser = argparse.ArgumentParser("bench/run", description=__doc__, allow_abbrev=False)
    parser.add_argument("--brokers", type=int, default=4, help="processes (4)")
    parser.add_argument("--connections", type=int, default=64, help="at once (64)")
    parser.add_argument("--seconds", type=int, default=10, help="of a run (10)")
    parser.add_argument("--creations", type=int, default=100000, help="how many instances are created (100000)")
    parser.add_argument("--store", metavar="URL", help="an empty database of PostgreSQL (a file of SQLite)")
    _load(parser.parse_args())


if __name__ == "__main__":
    main()
