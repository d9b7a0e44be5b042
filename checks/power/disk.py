"""A disk whose power can be cut: what was written to its file system and not synced may be lost.

The disk is a file with a file system, mounted over a loop device. A cut is a copy of the file at one moment: it has
what the kernel has written to the disk until then, and nothing that waits in the kernel's memory. To be of one moment,
the copy shares the blocks of the file. XFS can do that, so the file is on such a file system, on another loop device.
"""
from __future__ import annotations

import contextlib
import os
import subprocess
from pathlib import Path
from typing import Iterator

import pytest
from commands import needs

TOOLS = {"mkfs.xfs": "xfsprogs", "mkfs.ext4": "e2fsprogs", "mount": "mount"}
_PATH = f"{os.environ.get('PATH', '')}:/usr/sbin:/sbin"


def _run(*line: str | Path) -> None:
    subprocess.run([str(word) for word in line], check=True, capture_output=True, env={**os.environ, "PATH": _PATH})


@contextlib.contextmanager
def _mounted(image: Path, at: Path) -> Iterator[Path]:
    at.mkdir()
    _run("mount", "-o", "loop", image, at)
    try:
        yield at
    finally:
        _run("umount", at)


class Disk:
    """A disk that is in use at `top`."""

    def __init__(self, image: Path, top: Path, folder: Path) -> None:
        self.top = top
        self._image, self._folder = image, folder
        self._cuts = 0

    def cut(self) -> Path:
        """A copy of what would be on the disk after a power cut now. The disk stays in use."""
        self._cuts += 1
        copy = self._image.with_name(f"cut-{self._cuts}")
        _run("cp", "--reflink=always", self._image, copy)
        return copy

    @contextlib.contextmanager
    def after(self, cut: Path) -> Iterator[Path]:
        """Where the copy is mounted until the end of the block, as after a start of the machine."""
        with _mounted(cut, self._folder / cut.name) as top:
            yield top


@contextlib.contextmanager
def disk(folder: Path) -> Iterator[Disk]:
    """A new disk. The test is skipped if this machine can't have one."""
    needs(*TOOLS, packages=TOOLS, path=_PATH)
    if os.geteuid() != 0:
        pytest.skip("only root may mount a file system")
    host, image = folder / "host.img", folder / "host" / "disk"
    with contextlib.ExitStack() as stack:
        try:
            _sized(host, 512)
            _run("mkfs.xfs", "-q", host)
            stack.enter_context(_mounted(host, folder / "host"))
            _sized(image, 96)
            _run("mkfs.ext4", "-q", image)
            top = stack.enter_context(_mounted(image, folder / "disk"))
        except subprocess.CalledProcessError as error:
            pytest.skip(f"no file system can be mounted over a loop device: {error.stderr.decode().strip()}")
        yield Disk(image, top, folder)


def _sized(file: Path, mebibytes: int) -> None:
    with open(file, "wb") as made:
        made.truncate(mebibytes << 20)
