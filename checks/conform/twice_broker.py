"""A broker that creates an instance once more if its Provision is repeated. What exists are files in a folder."""
from __future__ import annotations

from pathlib import Path

from conform.small_broker import SmallBroker


class Folder(set[str]):
    """The ids of instances. Each one has a file, and a second file if it was added twice."""

    def __init__(self, folder: Path) -> None:
        super().__init__()
        self._folder = folder
        folder.mkdir()

    def add(self, id: str) -> None:
        name = f"{id}~2" if id in self else id
        super().add(id)
        (self._folder / name).touch()

    def remove(self, id: str) -> None:
        super().remove(id)
        for name in (id, f"{id}~2"):
            (self._folder / name).unlink(missing_ok=True)


class TwiceBroker(SmallBroker):
    """The broker, at `url` while `running`."""

    def __init__(self, folder: Path) -> None:
        super().__init__()
        self.instances = Folder(folder)
        self.list_command = f"ls {folder} | sed 's/~.*//'"
        """Prints an id twice if the instance was created twice."""
