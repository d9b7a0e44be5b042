"""Makes all packages of a release, with their checksums and a bill of materials.

The same sources, in any folder, and the same SOURCE_DATE_EPOCH, by default the time of the last commit, give the same
bytes.
"""

from __future__ import annotations

import argparse
import hashlib
import os
import platform
import shutil
import sys
import tempfile
from pathlib import Path

from release import debian, image, linked, python_wheel, sbom, sources, tarball


def main() -> int:
    """Makes them; the exit status."""
    parser = argparse.ArgumentParser("python -m release", description="Make the packages that people install.")
    parser.add_argument("--to", type=Path, default=sources.TOP / "dist", help="the folder for them (dist)")
    given = parser.parse_args()
    if sys.platform != "linux" or platform.machine() != "x86_64":
        print("release: the packages are for Linux on x86-64, and are made there", file=sys.stderr)
        return 70
    os.umask(0o022)
    try:
        with tempfile.TemporaryDirectory() as folder:
            made = Path(folder, "dist")
            made.mkdir()
            build(Path(folder), made)
            put(made, given.to)
    except sources.Failed as error:
        print(f"release: {error}", file=sys.stderr)
        return 70
    return 0


def build(folder: Path, into: Path) -> None:
    """Writes all files of the release. `folder`: for what is needed meanwhile."""
    found = sources.build(folder / "built")
    packages = linked.packages()
    made = [
        *debian.build(found, packages, folder / "deb", into),
        python_wheel.build(found, folder / "wheel", into),
        tarball.build(found, packages, into),
        image.build(found, packages, folder / "image", into),
    ]
    bill = into / f"osb-{found.version}.spdx.json"
    bill.write_text(sbom.document(found, packages, linked.package("ca-certificates"), made), encoding="utf-8")
    lines = (f"{hashlib.sha256(path.read_bytes()).hexdigest()}  {path.name}\n" for path in sorted([*made, bill]))
    (into / "SHA256SUMS").write_text("".join(lines), encoding="utf-8")


def put(made: Path, to: Path) -> None:
    """Moves the files of the release into a folder, in the place of what an earlier one has left there."""
    to.mkdir(parents=True, exist_ok=True)
    sums = to / "SHA256SUMS"
    if sums.exists():
        for line in sums.read_text(encoding="utf-8").splitlines():
            (to / Path(line.split("  ", 1)[1]).name).unlink(missing_ok=True)
    for path in sorted(made.iterdir()):
        shutil.copyfile(path, to / path.name)
        print(to / path.name)


if __name__ == "__main__":
    sys.exit(main())
