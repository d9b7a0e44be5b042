"""An image for containers, in the layout of OCI: the static programs that are services alone, without a shell.

The layout has two references, osb-broker and osb-platform. Both have the one layer, and each starts its program.
"""

from __future__ import annotations

import json
import time
from pathlib import Path

from release.archives import NOBODY, Entry, tar
from release.linked import Package, notices
from release.sources import SERVICES, TOP, Failed, Sources, run

AUTHORITIES = Path("/usr/share/ca-certificates/mozilla")
"""Debian's certificates of authorities, without those that the machine's administrator has added."""
STATE = "var/lib/osb"
HISTORY = "make release"


def build(sources: Sources, linked: list[Package], folder: Path, into: Path) -> Path:
    """Writes osb-VERSION.oci.tar. `folder`: a new one for what it needs meanwhile."""
    folder.mkdir()
    layer, layout = folder / "layer.tar", folder / "layout"
    layer.write_bytes(tar(entries(sources, linked), sources.epoch))
    run("umoci", "init", "--layout", layout)
    for name in SERVICES:
        _add(name, layer, layout, sources)
    run("umoci", "gc", "--layout", layout)
    made = into / f"osb-{sources.version}.oci.tar"
    made.write_bytes(tar(_of_folder(layout), sources.epoch))
    return made


def entries(sources: Sources, linked: list[Package]) -> list[Entry]:
    """What is in the image. Only the folder of the state and /tmp can be written to by its user, nobody."""
    folders = ["etc", "etc/ssl", "etc/ssl/certs", "usr", "usr/bin", "usr/share", "usr/share/doc", "usr/share/doc/osb"]
    texts = {
        "etc/group": f"root:x:0:\nnogroup:x:{NOBODY}:\n".encode(),
        "etc/passwd": f"root:x:0:0:root:/:/nologin\nnobody:x:{NOBODY}:{NOBODY}:nobody:/{STATE}:/nologin\n".encode(),
        "etc/ssl/certs/ca-certificates.crt": authorities(),
        "usr/share/doc/osb/LICENSE": (TOP / "LICENSE").read_bytes(),
        "usr/share/doc/osb/THIRD-PARTY": notices(linked).encode(),
    }
    return [
        *(Entry(folder, None, 0o755) for folder in folders),
        *(Entry(name, text, 0o644) for name, text in texts.items()),
        *(Entry(f"usr/bin/{service}", (sources.built / service).read_bytes(), 0o755) for service in SERVICES),
        Entry("tmp", None, 0o1777),
        Entry("var", None, 0o755),
        Entry("var/lib", None, 0o755),
        Entry(STATE, None, 0o700, NOBODY),
    ]


def authorities() -> bytes:
    """The certificates of all authorities."""
    found = sorted(AUTHORITIES.glob("*.crt"))
    if not found:
        raise Failed(f"{AUTHORITIES} has no certificates: apt-get install ca-certificates")
    return b"".join(path.read_bytes().rstrip(b"\n") + b"\n" for path in found)


def _add(name: str, layer: Path, layout: Path, sources: Sources) -> None:
    """Adds the reference to the image that starts this program."""
    image = f"{layout}:{name}"
    created = time.strftime("%Y-%m-%dT%H:%M:%SZ", time.gmtime(sources.epoch))
    history = [f"--history.created={created}", f"--history.created_by={HISTORY}"]
    run("umoci", "new", "--image", image)
    run("umoci", "raw", "add-layer", *history, "--image", image, layer)
    run(
        "umoci",
        "config",
        f"--created={created}",
        *history,
        "--os=linux",
        "--architecture=amd64",
        f"--config.user={NOBODY}:{NOBODY}",
        f"--config.entrypoint=/usr/bin/{name}",
        "--config.cmd=--help",
        f"--config.env=XDG_STATE_HOME=/{STATE}",
        "--config.env=PATH=/usr/bin",
        f"--config.volume=/{STATE}",
        f"--config.workingdir=/{STATE}",
        f"--config.label=org.opencontainers.image.version={sources.version}",
        "--config.label=org.opencontainers.image.licenses=Apache-2.0",
        "--image",
        image,
    )


def _of_folder(layout: Path) -> list[Entry]:
    """The entries of a layout, sorted. The order of the references in its index is by name."""
    index = layout / "index.json"
    parsed = json.loads(index.read_text(encoding="utf-8"))
    parsed["manifests"].sort(key=lambda it: it["annotations"]["org.opencontainers.image.ref.name"])
    index.write_text(json.dumps(parsed, separators=(",", ":"), sort_keys=True), encoding="utf-8")
    found = []
    for path in sorted(layout.rglob("*")):
        content = None if path.is_dir() else path.read_bytes()
        found.append(Entry(str(path.relative_to(layout)), content, 0o755 if path.is_dir() else 0o644))
    return found
