"""Which Debian packages are linked into the static programs, and under which licences."""

from __future__ import annotations

import fnmatch
import re
from pathlib import Path
from typing import NamedTuple

from release.sources import PROGRAMS, TOP, Failed, run

ARCHIVES = ("libc.a", "libm.a", "libgcc.a", "libgcc_eh.a", "libsqlite3.a")
"""What the C compiler links besides libosb.a."""
TAGS = "libsqlite3 netgo osusergo sqlite_omit_load_extension"
"""The build tags of scripts/go_program.sh."""

SPDX = {
    "Expat": "MIT",
    "Apache-2.0": "Apache-2.0",
    "BSD-2-Clause": "BSD-2-Clause",
    "BSD-3-Clause": "BSD-3-Clause",
    "BSD-3-clause": "BSD-3-Clause",
    "ISC": "ISC",
    "MPL-2.0": "MPL-2.0",
}
"""The licence identifiers of SPDX, by the names in Debian's copyright files."""

NOT_LINKED = re.compile(r"(^|/)(debian|testdata|_example|examples?|ttar)(/|$)")
"""Files that are in a package of sources, and in no program."""

BY_HAND = {
    "golang-*-src": "BSD-3-Clause",
    "libc6-dev": "LGPL-2.1-or-later",
    "libgcc-*-dev": "GPL-3.0-or-later WITH GCC-exception-3.1",
    "libsqlite3-dev": "blessing",
}
"""The licences of packages whose copyright files have no name of SPDX for them."""


class Package(NamedTuple):
    """An installed package of Debian."""

    name: str
    version: str
    source: str
    source_version: str
    licence: str
    """An expression of SPDX."""
    copyright: Path


def packages() -> list[Package]:
    """The packages that are linked into the programs, by name. Raises Failed if a file belongs to no package."""
    return [package(name) for name in sorted(owners([*_go_files(), *_archives()]))]


def package(name: str) -> Package:
    """The installed package of this name. Raises Failed if its licence isn't known."""
    fields = "${Package} ${Version} ${source:Package} ${source:Version}\n"
    found = run("dpkg-query", "-W", "-f", fields, name).splitlines()[0].split()
    text = Path("/usr/share/doc") / name / "copyright"
    if not text.is_file():
        raise Failed(f"{text} is missing: install {name} again, with its documentation")
    return Package(found[0], found[1], found[2], found[3], licence(name, text), text)


def owners(files: list[Path]) -> set[str]:
    """The packages that these files belong to. Raises Failed if a file belongs to none."""
    lines = run("dpkg-query", "-S", *files).splitlines()
    return {re.sub(":.*", "", line) for line in lines}


def _go_files() -> list[Path]:
    """A file of each package of Go that is linked: of Debian's packages, and of Go's own."""
    template = "{{.Standard}} {{.Dir}}/{{if .GoFiles}}{{index .GoFiles 0}}{{end}}"
    line = ["list", "-deps", "-tags", TAGS, "-f", template, *(f"./cmd/{program}" for program in PROGRAMS)]
    found = set()
    for row in run(TOP / "scripts" / "go", *line).splitlines():
        standard, file = row.split(" ", 1)
        path = Path(file).resolve()
        if TOP not in path.parents and (standard == "false" or path.parent.name == "runtime"):
            found.add(path)
    return sorted(found)


def _archives() -> list[Path]:
    return [Path(run("gcc", f"-print-file-name={archive}").strip()).resolve() for archive in ARCHIVES]


def licence(name: str, file: Path) -> str:
    """The licences of a package, by its copyright file."""
    for pattern, known in BY_HAND.items():
        if fnmatch.fnmatch(name, pattern):
            return known
    found = set()
    for stanza in file.read_text(encoding="utf-8").split("\n\n"):
        fields = dict(re.findall(r"^(Files|License): *(.*)$", stanza, re.MULTILINE))
        if "Files" in fields and not NOT_LINKED.search(fields["Files"]):
            found.add(fields.get("License", "").strip())
    unknown = sorted(found - set(SPDX))
    if unknown or not found:
        raise Failed(f"{file} names {', '.join(unknown) or 'no licence'}: add it to SPDX in release/linked.py")
    return " AND ".join(sorted({SPDX[name] for name in found}))


def notices(found: list[Package]) -> str:
    """The copyright files of these packages, one after another."""
    begin = (
        "The static programs are linked with the packages of Debian below. Each has its name, its\n"
        "version and its copyright file here. https://snapshot.debian.org has the sources.\n"
    )
    parts = [
        f"{package.name} {package.version}\n\n{package.copyright.read_text(encoding='utf-8').strip()}\n"
        for package in found
    ]
    return f"\n{'-' * 78}\n\n".join([begin, *parts])
