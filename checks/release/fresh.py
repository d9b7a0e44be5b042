"""A fresh Debian in a folder: packages are installed into it, and systemd runs in it if this machine allows that.

All that runs in it has namespaces of its own. While systemd runs, the Debian has no network but its own loopback.
"""

from __future__ import annotations

import contextlib
import os
import shutil
import signal
import subprocess
import time
from pathlib import Path
from typing import Iterator

import pytest
from commands import needs, printed

PATH = "/usr/local/sbin:/usr/local/bin:/usr/sbin:/usr/bin:/sbin:/bin"
SUITE = "bookworm"

# What prepares the folder $1 in new namespaces, and enters it.
_ENTER = """
set -e
mount --make-rprivate /
mount --bind "$1" "$1"
cd "$1"
mount -t proc proc proc
mount -t sysfs -o ro sysfs sys
for at in run tmp dev; do mount -t tmpfs -o mode=755 tmpfs "$at"; done
chmod 1777 tmp
for device in null zero full random urandom tty; do
    touch "dev/$device" && mount --bind "/dev/$device" "dev/$device"
done
mkdir dev/pts dev/shm .outside
mount -t devpts -o newinstance,ptmxmode=0666,mode=620 devpts dev/pts
mount -t tmpfs -o mode=1777 tmpfs dev/shm
ln -s pts/ptmx dev/ptmx
ln -s /proc/self/fd dev/fd
pivot_root . .outside
"""
_COMMAND = f'{_ENTER}umount -l /.outside && rmdir /.outside\nexec bash -c "$2"'
_SYSTEMD = f"""{_ENTER}
mount -t tmpfs -o mode=755 tmpfs /sys/fs/cgroup
mount -t cgroup2 cgroup2 /sys/fs/cgroup
umount -l /.outside && rmdir /.outside
mount --make-rshared /
export container=test
exec /lib/systemd/systemd --log-target=null --show-status=no
"""


class Fresh:
    """A Debian in a folder."""

    def __init__(self, top: Path) -> None:
        self.top = top
        self._systemd: int | None = None

    def run(self, script: str, network: bool = False) -> str:
        """Runs a script in it, which must succeed, and returns what it printed: beside systemd if that runs."""
        if self._systemd is None:
            more = [] if network else ["--net"]
            enter = ["unshare", "--mount", "--pid", "--fork", "--uts", "--ipc", *more, "--kill-child"]
            line = [*enter, "bash", "-c", _COMMAND, "enter", str(self.top), f"set -e\n{script}"]
        else:
            line = ["nsenter", "-t", str(self._systemd), "-m", "-p", "-u", "-i", "-n", "-C", "bash", "-ec", script]
        own = {"PATH": PATH, "HOME": "/srv", "DEBIAN_FRONTEND": "noninteractive", "LC_ALL": "C.UTF-8"}
        return printed(line, environment={**own, **_proxies()})

    def put(self, file: Path, name: str) -> str:
        """Copies a file into its folder /packages, and returns its path there."""
        (self.top / "packages").mkdir(exist_ok=True)
        shutil.copyfile(file, self.top / "packages" / name)
        return f"/packages/{name}"

    @contextlib.contextmanager
    def booted(self) -> Iterator[None]:
        """Runs systemd in it until the end of the block. Skips the test if this machine doesn't let it."""
        group = _group()
        line = ["unshare", "--mount", "--pid", "--fork", "--uts", "--ipc", "--net", "--cgroup", "--kill-child=SIGKILL"]
        # If the tests are killed, unshare ends, and with it all of the new namespaces.
        inner = f'echo $$ >"$2/cgroup.procs" && exec setpriv --pdeathsig KILL {" ".join(line)} bash -c "$3" enter "$1"'
        command = ["bash", "-c", inner, "boot", str(self.top), str(group), _SYSTEMD]
        environment = {"PATH": PATH}
        process = subprocess.Popen(
            command,
            env=environment,
            stdin=subprocess.DEVNULL,
            stdout=subprocess.PIPE,
            stderr=subprocess.STDOUT,
            text=True,
        )
        try:
            self._systemd = self._started(process)
            yield
        finally:
            self._systemd = None
            for number in (_child(process), process.pid):
                with contextlib.suppress(ProcessLookupError, TypeError):
                    os.kill(number, signal.SIGKILL)  # type: ignore[arg-type]
            process.communicate()
            _remove(group)

    def _started(self, process: subprocess.Popen[str]) -> int:
        """The number of systemd's process, once it runs the default target."""
        end = time.monotonic() + 60
        said = ""
        while time.monotonic() < end and process.poll() is None:
            number = _child(process)
            if number is not None and Path(f"/proc/{number}/comm").read_text() == "systemd\n":
                line = ["nsenter", "-t", str(number), "-m", "-p", "-n", "systemctl", "is-system-running", "--wait"]
                with contextlib.suppress(subprocess.TimeoutExpired):
                    said = subprocess.run(line, capture_output=True, text=True, timeout=20).stdout.strip()
                if said in ("running", "degraded"):
                    return number
            time.sleep(0.1)
        why = said or (process.communicate()[0] if process.poll() is not None else "it doesn't begin")
        pytest.skip(f"systemd doesn't run in a folder of this machine: {why}")


def _child(process: subprocess.Popen[str]) -> int | None:
    """The process in the new namespace."""
    with contextlib.suppress(OSError):
        found = Path(f"/proc/{process.pid}/task/{process.pid}/children").read_text().split()
        return int(found[0]) if found else None
    return None


def _proxies() -> dict[str, str]:
    proxies = "http_proxy", "https_proxy", "no_proxy"
    return {name: value for name, value in os.environ.items() if name.lower() in proxies}


def _group() -> Path:
    """A new group of the control groups, version 2, for what systemd starts."""
    mounts = [line.split() for line in Path("/proc/self/mounts").read_text().splitlines()]
    tops = [mount[1] for mount in mounts if mount[2] == "cgroup2"]
    if not tops:
        pytest.skip("systemd doesn't run here: there are no control groups of version 2")
    group = Path(tops[0]) / f"osb-test-{os.getpid()}"
    try:
        group.mkdir()
    except OSError as error:
        pytest.skip(f"systemd doesn't run here: {error}")
    return group


def _remove(group: Path) -> None:
    """Removes a group, once its processes have ended."""
    for folder in sorted([group, *group.rglob("*")], reverse=True):
        if folder.is_dir():
            for _ in range(100):
                try:
                    folder.rmdir()
                    break
                except OSError:
                    time.sleep(0.05)


def mirror() -> str:
    """The URL of Debian's packages in the machine's own /etc/apt. Skips the test if it has none."""
    wanted = "$(SITE) $(REPO_URI) $(ORIGIN) $(CODENAME) $(COMPONENT)"
    line = ["apt-get", "indextargets", "--format", wanted, "Created-By: Packages"]
    try:
        found = subprocess.run(line, capture_output=True, text=True).stdout
    except FileNotFoundError:
        pytest.skip("apt-get isn't installed")
    for row in found.splitlines():
        words = row.split()
        if words[2:] == ["Debian", SUITE, "main"]:
            return words[1].rstrip("/")
    pytest.skip(f"/etc/apt names no mirror of Debian {SUITE} whose index was fetched")


def fresh(folder: Path, *packages: str) -> Fresh:
    """A new Debian with these packages besides the least. Skips the test if this machine can't make one."""
    needs("debootstrap", "unshare", "nsenter", "mount", path=f"{os.environ['PATH']}:/usr/sbin:/sbin")
    if os.geteuid() != 0:
        pytest.skip("only root may make a Debian in a folder")
    line = ["debootstrap", "--variant=minbase", f"--include={','.join(packages)}", SUITE, str(folder), mirror()]
    ran = subprocess.run(line, stdout=subprocess.PIPE, stderr=subprocess.STDOUT, text=True, timeout=1800)
    if ran.returncode != 0:
        pytest.skip(f"debootstrap can't make a Debian here: {ran.stdout.strip().splitlines()[-1]}")
    return Fresh(folder)
