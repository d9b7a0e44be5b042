"""What all tests share: the library, the programs, and a PostgreSQL server that lives as long as the run."""
from __future__ import annotations

import contextlib
import importlib.util
import os
import secrets
import shutil
import socket
import subprocess
import time
from pathlib import Path
from typing import Iterator

import progress
import pytest

TOP = Path(__file__).resolve().parent
PATHS = [str(TOP / name) for name in ("python/src", "python", "programs", "checks")]
PORT = pytest.StashKey[int]()
"""The port of the PostgreSQL server of this process."""


def pytest_configure(config: pytest.Config) -> None:
    """Sets what the tests and the programs that they start find in the environment, before any test is imported."""
    for name in ("MAKEFLAGS", "MFLAGS"):  # of a `make` that started this: they aren't for what the tests start
        os.environ.pop(name, None)
    before = os.environ.get("PYTHONPATH", "").split(os.pathsep)
    os.environ["PYTHONPATH"] = os.pathsep.join([*PATHS, *(path for path in before if path and path not in PATHS)])
    with contextlib.suppress(LookupError):
        os.environ["LIBOSB"] = str(_where("LIBOSB_FOLDER", "library") / "libosb.so")
    is_worker = hasattr(config, "workerinput")  # a process that pytest-xdist started
    progress.register(config)
    if shutil.which("pg_virtualenv") and importlib.util.find_spec("psycopg2"):
        if is_worker or "OSB_TEST_POSTGRESQL" not in os.environ:
            config.stash[PORT] = _choose_server()


@pytest.hookimpl(trylast=True)  # type: ignore[misc]  # after -m and -k
def pytest_collection_modifyitems(items: list[pytest.Item]) -> None:
    """Has what is marked `long` begin first, the longest at once, and what isn't marked `slow` last. With `--dist
    loadgroup` the next test goes to the process that is free, so all processes end at the same time.
    """
    items.sort(key=_turn)


def _turn(item: pytest.Item) -> float:
    """Tests begin in the order of this number, and as they were collected."""
    if long := item.get_closest_marker("long"):
        return -float(long.args[0] if long.args else 60)
    return 0 if item.get_closest_marker("slow") else 1


def pytest_itemcollected(item: pytest.Item) -> None:
    """Has one process run all tests that are marked `alone` and belong to no group (pytest -n 2 --dist loadgroup)."""
    if item.get_closest_marker("alone") and not item.get_closest_marker("xdist_group"):
        item.add_marker(pytest.mark.xdist_group("alone"))


# ---- The library and the programs.


def _where(variable: str, what: str) -> Path:
    """The path in the environment variable. If there is none, `scripts/where` finds or builds it, and sets it."""
    if variable not in os.environ:
        script = TOP / "scripts" / "where"
        if not script.exists():
            raise LookupError(f"set {variable}: {script} doesn't exist")
        found = subprocess.run([str(script), what], stdin=subprocess.DEVNULL, stdout=subprocess.PIPE, text=True)
        if found.returncode != 0:
            raise LookupError(f"`scripts/where {what}` ended with status {found.returncode}")
        os.environ[variable] = found.stdout.strip()
    return Path(os.environ[variable]).resolve()


@pytest.fixture(scope="session")
def library() -> Path:
    """The folder with libosb.so and libosb.a."""
    return _where("LIBOSB_FOLDER", "library")


@pytest.fixture(scope="session")
def replay() -> Path:
    """The program osb-replay."""
    return _where("OSB_REPLAY", "replay")


@pytest.fixture(scope="session")
def broker() -> Path:
    """The program that ./osb-broker runs (_program)."""
    return _program("osb-broker", "OSB_BROKER")


@pytest.fixture(scope="session")
def platform() -> Path:
    """The program that ./osb-platform runs (_program)."""
    return _program("osb-platform", "OSB_PLATFORM")


@pytest.fixture(scope="session")
def storm() -> Path:
    """The program that ./osb-storm runs (_program)."""
    return _program("osb-storm", "OSB_STORM")


def _program(name: str, variable: str) -> Path:
    """The program that the launcher runs: the one that the environment variable names. If it names none, the launcher
    builds the program, and the variable names that one from then on.
    """
    if not os.environ.get(variable):
        ran = subprocess.run([TOP / name, "--help"], stdin=subprocess.DEVNULL, capture_output=True, text=True)
        if "apt-get install" in ran.stderr:
            pytest.skip(ran.stderr.strip())
        assert ran.returncode == 0, ran.stderr
        os.environ[variable] = str(TOP / "out" / "go" / name)
    return Path(os.environ[variable]).resolve()


# ---- PostgreSQL. Each process of pytest chooses an address, and its first test that needs the server starts it.

# What pg_virtualenv runs beside the server. Its standard input also ends if pytest is killed.
_SERVE = """
psql -qc "CREATE ROLE osb SUPERUSER LOGIN PASSWORD '$OSB_TEST_PASSWORD'"
psql -qc "CREATE DATABASE osb OWNER osb"
cat
"""


def _choose_server() -> int:
    """Sets the address and the password of a server that doesn't run yet in the environment, and returns its port."""
    with contextlib.ExitStack() as stack:
        for port in range(20000 + os.getpid() % 10000, 32000):  # below those that the system gives to connections
            with contextlib.suppress(OSError):
                stack.enter_context(socket.create_server(("127.0.0.1", port)))
                break
    os.environ["OSB_TEST_POSTGRESQL"] = f"postgresql://osb@127.0.0.1:{port}/osb"
    os.environ["PGPASSWORD"] = secrets.token_hex(16)
    return port


@pytest.fixture(scope="session")
def postgresql(pytestconfig: pytest.Config) -> Iterator[str]:
    """The URL of an empty database, as a superuser, at a server that runs: OSB_TEST_POSTGRESQL.

    If that variable is set before the run, it names the database to use, and `-n` may not be given.
    """
    if "OSB_TEST_POSTGRESQL" not in os.environ:
        pytest.skip("PostgreSQL isn't installed (Debian: postgresql, python3-psycopg2)")
    url = os.environ["OSB_TEST_POSTGRESQL"]
    if PORT not in pytestconfig.stash:
        yield url
        return
    few_locks = "max_locks_per_transaction=10"  # a test that fills their table has less to do
    prepared = "max_prepared_transactions=10"  # a test prepares one; by default a server allows none
    options = f"port={pytestconfig.stash[PORT]}", "max_connections=300", few_locks, prepared
    settings = ["-c", "--locale=C --encoding=UTF8", *(word for option in options for word in ("-o", option))]
    server = subprocess.Popen(
        ["pg_virtualenv", "-t", *settings, "sh", "-ec", _SERVE],
        env={**os.environ, "OSB_TEST_PASSWORD": os.environ["PGPASSWORD"]},
        stdin=subprocess.PIPE,
        stdout=subprocess.DEVNULL,
        start_new_session=True,
    )
    try:
        _wait_for(server, url)
        yield url
    finally:
        server.communicate()


def _wait_for(server: subprocess.Popen[bytes], url: str) -> None:
    import psycopg2

    while True:
        try:
            psycopg2.connect(url).close()
            return
        except psycopg2.OperationalError:
            if server.poll() is not None:
                raise
            time.sleep(0.1)


@pytest.fixture(autouse=True)
def _server_if_marked(request: pytest.FixtureRequest) -> None:
    """Starts the server for a test that is marked `postgres`."""
    if request.node.get_closest_marker("postgres"):
        request.getfixturevalue("postgresql")
