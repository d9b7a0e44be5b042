"""The package for Python as a wheel that has the library inside, so that pip installs all of it."""

from __future__ import annotations

import base64
import hashlib
import re
import shutil
import time
import zipfile
from pathlib import Path

from release.sources import TOP, Failed, Sources, run

TAG = "py3-none-manylinux_2_17_x86_64"
"""The library needs no symbol of a later glibc; `newest_symbol` tells."""
NEWEST = (2, 17)
BUILD = "import sys, setuptools.build_meta as it; it.build_wheel(sys.argv[1])"


def build(sources: Sources, folder: Path, into: Path) -> Path:
    """Writes the wheel. `folder`: a new one for what it needs meanwhile."""
    library = sources.library / "libosb.so"
    found = newest_symbol(library)
    if found > NEWEST:
        raise Failed(f"{library} needs glibc {found[0]}.{found[1]}, and the wheel's tag promises {TAG}")
    shutil.copytree(
        TOP / "python", folder / "python", ignore=shutil.ignore_patterns("__pycache__", "build", "*.egg-info")
    )
    (folder / "made").mkdir()
    run("/usr/bin/python3", "-c", BUILD, folder / "made", folder=folder / "python")
    (plain,) = (folder / "made").glob("*.whl")
    return _with_library(plain, library, sources, into)


def newest_symbol(library: Path) -> tuple[int, int]:
    """The newest version of glibc that a symbol of the library belongs to."""
    versions = re.findall(r"GLIBC_(\d+)\.(\d+)", run("readelf", "-W", "--dyn-syms", library))
    return max((int(major), int(minor)) for major, minor in versions)


def _with_library(plain: Path, library: Path, sources: Sources, into: Path) -> Path:
    """The wheel with the library, its tag, and a new RECORD."""
    about = f"osb-{sources.version}.dist-info"
    with zipfile.ZipFile(plain) as wheel:
        files = {path: wheel.read(path) for path in wheel.namelist()}
    if f"{about}/RECORD" not in files:
        raise Failed(f"python/pyproject.toml has another version than VERSION: {plain.name}")
    files["osb/libosb.so.0"] = library.read_bytes()
    files[f"{about}/LICENSE"] = (TOP / "LICENSE").read_bytes()
    tagged = re.sub("(?m)^Tag: .*$", f"Tag: {TAG}", files[f"{about}/WHEEL"].decode())
    files[f"{about}/WHEEL"] = tagged.replace("Root-Is-Purelib: true", "Root-Is-Purelib: false").encode()
    del files[f"{about}/RECORD"]
    files[f"{about}/RECORD"] = _record(files, about)
    made = into / f"osb-{sources.version}-{TAG}.whl"
    made.write_bytes(b"")
    with zipfile.ZipFile(made, "w", zipfile.ZIP_DEFLATED, compresslevel=9) as wheel:
        for name in sorted(files, key=lambda it: (it.startswith(about), it)):
            wheel.writestr(_member(name, sources.epoch), files[name])
    return made


def _record(files: dict[str, bytes], about: str) -> bytes:
    """The lines of RECORD: a name, a digest and a length, as the specification of wheels has them."""
    lines = []
    for name in sorted(files):
        digest = base64.urlsafe_b64encode(hashlib.sha256(files[name]).digest()).decode().rstrip("=")
        lines.append(f"{name},sha256={digest},{len(files[name])}\n")
    return "".join([*lines, f"{about}/RECORD,,\n"]).encode()


def _member(name: str, epoch: int) -> zipfile.ZipInfo:
    """What a zip says of a file. It has no earlier time than 1980."""
    year, month, day, hour, minute, second = time.gmtime(max(epoch, 315532800))[:6]
    found = zipfile.ZipInfo(name, (year, month, day, hour, minute, second))
    found.compress_type, found.create_system = zipfile.ZIP_DEFLATED, 3
    found.external_attr = (0o100755 if name.endswith(".so.0") else 0o100644) << 16
    return found
