"""All programs in a tarball, for a machine without a package manager."""

from __future__ import annotations

from pathlib import Path, PurePosixPath
from typing import Iterator

from release import python_programs
from release.archives import Entry, compressed, tar
from release.linked import Package, notices
from release.sources import TOP, Sources


def build(sources: Sources, linked: list[Package], into: Path) -> Path:
    """Writes osb-VERSION-linux-amd64.tar.gz."""
    top = f"osb-{sources.version}"
    texts = {name: (TOP / name).read_bytes() for name in ("LICENSE", "README.md")}
    texts["THIRD-PARTY"] = notices(linked).encode()
    entries = [
        Entry(top, None, 0o755),
        *(Entry(f"{top}/{name}", text, 0o644) for name, text in texts.items()),
        *(Entry(f"{top}/{path.name}", path.read_bytes(), 0o755) for path in [*sources.programs, sources.replay]),
        *_python_programs(top, sources),
    ]
    made = into / f"{top}-linux-amd64.tar.gz"
    made.write_bytes(compressed(tar(entries, sources.epoch)))
    return made


def _python_programs(top: str, sources: Sources) -> Iterator[Entry]:
    """The programs in Python, with the library beside the package osb, which takes that one."""
    here = '$(dirname "$(readlink -f "$0")")'
    for name in python_programs.NAMES:
        text = python_programs.launcher(name, here, "osb-replay", "python3")
        yield Entry(f"{top}/{name}", text.encode(), 0o755)
    files = {**python_programs.modules(), "osb/libosb.so.0": sources.library / "libosb.so"}
    share = PurePosixPath(top, python_programs.SHARE)
    folders = {share / parent for name in files for parent in PurePosixPath(name).parents} | {share.parent}
    for folder in sorted(folders):
        yield Entry(str(folder), None, 0o755)
    for name, file in sorted(files.items()):
        yield Entry(str(share / name), file.read_bytes(), 0o644)
