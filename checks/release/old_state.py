"""The state of version 0.2, as its own programs left it.

osb-broker 0.2 and osb-platform 0.2 ran on one machine, with their default options and the address of the broker:

1. Three instances were created: AT_ONCE, LATER and GONE.
2. GONE was deleted.
3. The worker was stopped. Then the deletion of AT_ONCE and the creation of ORDERED were ordered.
4. The broker was stopped.

Both stopped by themselves after SIGTERM. The library beneath them was the first one in `prebuilt/`. Its code for both
sides is that of version 0.2.

In `state-0.2/`, the two stores are dumps in SQL, and `list.txt` is what `osb-platform list` of version 0.2 printed
about this state. All other files are as the programs left them. In the name of `instances.sqlite.host.lock`, `host`
stands for the name of the machine.
"""

from __future__ import annotations

import contextlib
import shutil
import sqlite3
import tempfile
from pathlib import Path

STATE = Path(__file__).parent / "state-0.2"
LISTED = sorted((STATE / "list.txt").read_text(encoding="utf-8").splitlines())
"""The rows of `osb-platform list`: id, state, since, service and plan."""

AT_ONCE = "4a240f95-19b7-4b5b-a00c-205ed4001890"
"""It is ready. It was created synchronously. Its deletion was ordered, and not sent."""
LATER = "aefa1862-6518-46b3-b489-1ed8af055444"
"""It is ready. It was created asynchronously."""
GONE = "c3a6e296-9cc2-4d8d-a2b9-66c53a5b1aca"
ORDERED = "180546bf-8ba5-434f-a860-c68bc8f1d167"
"""Its creation was ordered, and not sent."""


def write(folder: Path) -> None:
    """Writes the two state folders, osb-broker and osb-platform, into a folder."""
    for name in ("osb-broker", "osb-platform"):
        shutil.copytree(STATE / name, folder / name, ignore=shutil.ignore_patterns("*.sql"))
    for dump in STATE.rglob("*.sql"):
        _restore(dump, folder / dump.relative_to(STATE).with_suffix(""))


def _restore(dump: Path, store: Path) -> None:
    """Writes a store from its dump. The rows are in the file STORE-wal, as osb-broker 0.2 leaves them."""
    with tempfile.TemporaryDirectory() as folder:
        with contextlib.closing(sqlite3.connect(Path(folder, store.name))) as connection:
            connection.execute("PRAGMA journal_mode = WAL")
            connection.executescript(dump.read_text(encoding="utf-8"))
            for file in Path(folder).iterdir():  # closing the connection would move the rows into the store
                shutil.copyfile(file, store.with_name(file.name))
