"""The image for containers: what is in it, and that its program serves as its user."""

from __future__ import annotations

import base64
import json
import os
import shutil
import subprocess
import tarfile
import urllib.request
from pathlib import Path
from typing import Any

import pytest
import waiting
from commands import needs, printed
from ports import free_port

pytestmark = pytest.mark.slow

NOBODY = 65534


@pytest.fixture
def layout(dist: Path, version: str, tmp_path: Path) -> Path:
    """The layout as a folder."""
    with tarfile.open(dist / f"osb-{version}.oci.tar") as opened:
        opened.extractall(tmp_path / "layout")
    return tmp_path / "layout"


def blob(layout: Path, digest: str) -> Any:
    return json.loads((layout / "blobs" / digest.replace(":", "/")).read_text())


def unpack(layout: Path, name: str, to: Path) -> dict[str, Any]:
    """Has umoci unpack a reference, and returns the configuration of its process."""
    if os.geteuid() != 0:
        pytest.skip("only root may unpack files of other users")
    needs("umoci")
    printed(["umoci", "unpack", "--image", f"{layout}:{name}", to])
    process = json.loads((to / "config.json").read_text())["process"]
    assert isinstance(process, dict)
    return process


def test_references(layout: Path, version: str) -> None:
    """Two, over one layer. Each starts its program as nobody."""
    assert json.loads((layout / "oci-layout").read_text()) == {"imageLayoutVersion": "1.0.0"}
    found = {}
    for entry in json.loads((layout / "index.json").read_text())["manifests"]:
        manifest = blob(layout, entry["digest"])
        config = blob(layout, manifest["config"]["digest"])
        assert (config["os"], config["architecture"]) == ("linux", "amd64")
        assert config["config"]["Labels"]["org.opencontainers.image.version"] == version
        (layer,) = manifest["layers"]
        name = entry["annotations"]["org.opencontainers.image.ref.name"]
        found[name] = config["config"]["User"], config["config"]["Entrypoint"], layer["digest"]
    assert len({row[2] for row in found.values()}) == 1
    assert {name: row[:2] for name, row in found.items()} == {
        name: (f"{NOBODY}:{NOBODY}", [f"/usr/bin/{name}"]) for name in ("osb-broker", "osb-platform")
    }


def test_files(layout: Path, tmp_path: Path) -> None:
    """The static programs, without a shell or any other program; and the authorities of TLS."""
    unpack(layout, "osb-platform", tmp_path / "bundle")
    top = tmp_path / "bundle" / "rootfs"
    programs = [str(path.relative_to(top)) for path in top.rglob("*") if path.is_file() and path.stat().st_mode & 0o111]
    assert sorted(programs) == ["usr/bin/osb-broker", "usr/bin/osb-platform"]
    assert (top / "etc/ssl/certs/ca-certificates.crt").read_text().count("BEGIN CERTIFICATE") > 100
    writable = [path for path in top.rglob("*") if path.stat().st_uid == NOBODY or path.stat().st_mode & 0o002]
    assert sorted(str(path.relative_to(top)) for path in writable) == ["tmp", "var/lib/osb"]


def test_program_serves_as_nobody(layout: Path, tmp_path: Path) -> None:
    """In the image alone, with its environment, its folder and its user; the arguments are those of a container."""
    process = unpack(layout, "osb-broker", tmp_path / "bundle")
    top = tmp_path / "bundle" / "rootfs"
    port = free_port()
    arguments = process["args"][:1] + ["serve", f"--listen=127.0.0.1:{port}"]
    user = process["user"]
    assert (user["uid"], user["gid"], process["cwd"]) == (NOBODY, NOBODY, "/var/lib/osb")
    line = [f"--userspec={user['uid']}:{user['gid']}", str(top), *arguments]
    given = {**dict(variable.split("=", 1) for variable in process["env"]), "OSB_BROKER_PASSWORD": "secret"}
    chroot = shutil.which("chroot", path=f"{os.environ['PATH']}:/usr/sbin")
    assert chroot is not None
    started = subprocess.Popen([chroot, *line], env=given, stderr=subprocess.PIPE, text=True)
    try:
        assert started.stderr is not None
        waiting.until(lambda: started.poll() is not None or is_served(port))
        assert started.poll() is None, started.stderr.read()
        status = Path(f"/proc/{started.pid}/status").read_text()
        assert f"Uid:\t{NOBODY}\t{NOBODY}\t{NOBODY}\t{NOBODY}\n" in status
        assert (top / "var/lib/osb/osb-broker/holdings.sqlite").stat().st_uid == NOBODY
    finally:
        started.terminate()
        started.communicate()
    assert started.returncode == 0


def is_served(port: int) -> bool:
    """Whether the broker answers its catalogue."""
    login = base64.b64encode(b"platform:secret").decode()
    headers = {"Authorization": f"Basic {login}", "X-Broker-API-Version": "2.17"}
    request = urllib.request.Request(f"http://127.0.0.1:{port}/v2/catalog", headers=headers)
    try:
        with urllib.request.urlopen(request, timeout=60) as answer:
            return bool(json.load(answer)["services"])
    except OSError:
        return False
