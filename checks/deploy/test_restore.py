"""What SECURITY.md says about a store that is restored from a copy, and how to mend that: over folders and SQLite."""

from __future__ import annotations

import json
import re
import shutil
import sqlite3
import subprocess
import urllib.error
from contextlib import closing, contextmanager
from pathlib import Path
from typing import Iterator

import pytest
from deploy.programs import OF_BROKER, ask, environment, order, running, serve
from docs.pages import read
from osb import Id
from ports import free_address

pytestmark = pytest.mark.slow

PLAN = {"service_id": "00000000-0000-0000-0000-0000000000a0", "plan_id": "00000000-0000-0000-0000-0000000000b1"}
QUERY = "&".join(f"{name}={value}" for name, value in PLAN.items())


class Broker:
    """A broker that sells folders. `at`: its address; `state`: its folder."""

    def __init__(self, program: Path, state: Path) -> None:
        self.state, self.at = state, free_address()
        self._health = f"http://{free_address()}"
        self._command = serve(program, self.at, self._health, "--state", str(state))

    @contextmanager
    def serving(self) -> Iterator[None]:
        with running(*self._command, health=self._health, environment=OF_BROKER):
            yield

    def _status(self, method: str, path: str, body: str | None = None) -> int | str:
        """The status of an error, or the state or nothing of a success."""
        try:
            answer = ask(method, f"http://{self.at}/v2/service_instances/{path}", body)
        except urllib.error.HTTPError as error:
            error.close()
            return error.code
        state: str = json.loads(answer).get("state", "done")
        return state

    def create(self, instance: str) -> int | str:
        return self._status("PUT", instance, json.dumps({**PLAN, "organization_guid": "o", "space_guid": "s"}))

    def delete(self, instance: str) -> int | str:
        return self._status("DELETE", f"{instance}?{QUERY}")

    def poll(self, instance: str) -> int | str:
        return self._status("GET", f"{instance}/last_operation")

    def unmatched(self) -> tuple[set[str], set[str]]:
        """The two columns of the page: what exists and isn't held, and what is held and doesn't exist."""
        found = re.search(r'holdings\.sqlite "(SELECT id FROM holdings.*?)"', read("SECURITY.md"), re.DOTALL)
        assert found is not None
        with closing(sqlite3.connect(self.state / "holdings.sqlite")) as store:
            held = {str(row[0]) for row in store.execute(found[1])}
        exist = {path.name for path in (self.state / "instances").iterdir() if not path.name.startswith(".")}
        return exist - held, held - exist


def copy(store: Path, to: Path) -> None:
    """Copies a store while it is used, as `.backup` does."""
    with closing(sqlite3.connect(store)) as one, closing(sqlite3.connect(to)) as other:
        one.backup(other)


def restore(store: Path, of: Path) -> None:
    """Puts the copy in place of the store."""
    for file in store.parent.glob(f"{store.name}-*"):
        file.unlink()
    shutil.copy(of, store)


def number(text: str) -> str:
    return str(Id.of_text(text))


def test_store_of_the_broker(broker: Path, tmp_path: Path) -> None:
    """What the page says is wrong after the restore is wrong, and what it says to do mends it."""
    one = Broker(broker, tmp_path / "state")
    store, saved = one.state / "holdings.sqlite", tmp_path / "copy"
    with one.serving():
        assert one.create("old") == "done"
        copy(store, saved)
        assert [one.create("since"), one.delete("old")] == ["done", "done"]
        assert [one.create("short"), one.delete("short"), one.create("short")] == ["done", "done", 409]
        (one.state / "instances" / number("since") / "data").write_text("kept", encoding="utf-8")
    restore(store, saved)
    with one.serving():
        assert [one.poll("since"), one.poll("old")] == [410, "succeeded"]
        assert one.unmatched() == ({number("since")}, {number("old")})
        assert one.create("since") == "done"
        assert (one.state / "instances" / number("since") / "data").read_text(encoding="utf-8") == "kept"
        assert [one.delete("old"), one.poll("old")] == ["done", 410]
        assert [one.delete("short"), one.create("short")] == [410, 409]
        assert one.unmatched() == (set(), set())
        assert [one.poll("since"), one.delete("since")] == ["succeeded", "done"]


def test_a_tombstone_is_missing(broker: Path, tmp_path: Path) -> None:
    """Without step 4, a Provision of an id that had ended creates the instance again."""
    one = Broker(broker, tmp_path / "state")
    store, saved = one.state / "holdings.sqlite", tmp_path / "copy"
    with one.serving():
        copy(store, saved)
        assert [one.create("short"), one.delete("short"), one.create("short")] == ["done", "done", 409]
    restore(store, saved)
    with one.serving():
        assert one.create("short") == "done"


def state_of(platform: Path, folder: Path, instance: str) -> str:
    """The state of the instance, or nothing if the platform doesn't know it."""
    command = [str(platform), "show", instance, "--json"]
    ran = subprocess.run(command, env=environment(folder), capture_output=True, text=True)
    return str(json.loads(ran.stdout)["state"]) if ran.returncode == 0 else ""


def test_store_of_the_platform(broker: Path, platform: Path, tmp_path: Path) -> None:
    """An instance that was ordered since is known again, and one that was removed since becomes gone."""
    one, health = Broker(broker, tmp_path / "state"), f"http://{free_address()}"
    worker = [str(platform), "run", "--health-listen", health.partition("//")[2]]
    store, saved = tmp_path / "store.sqlite", tmp_path / "copy"

    def create(instance: str) -> None:
        order(platform, tmp_path, "create", "--id", instance, *"--service folder --plan at-once --wait=30".split())

    with one.serving():
        order(platform, tmp_path, "key", "--to", str(tmp_path / "key"))
        order(platform, tmp_path, "broker", "add", "shop", f"http://{one.at}", "--store-password")
        with running(*worker, health=health, environment=environment(tmp_path)):
            create("old")
            copy(store, saved)
            create("since")
            order(platform, tmp_path, "remove", "old", "--wait=30")
        restore(store, saved)
        assert [state_of(platform, tmp_path, moment) for moment in ("old", "since")] == ["ready", ""]
        with running(*worker, health=health, environment=environment(tmp_path)):
            create("since")
            order(platform, tmp_path, "remove", "old", "--wait=30")
        assert [state_of(platform, tmp_path, moment) for moment in ("old", "since")] == ["gone", "ready"]
        assert [one.poll("old"), one.poll("since")] == [410, "succeeded"]
