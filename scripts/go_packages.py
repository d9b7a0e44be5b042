#!/usr/bin/env python3
"""Write which packages go/ has, and which imports which, into docs/architecture-programs.md.

    scripts/go_packages.py            writes the section below the heading "The packages of Go"
    scripts/go_packages.py --check    writes nothing

The status is 1 if a package imports what the rules forbid, and with --check if the section isn't what would be written.
The packages are those that `scripts/go list` names. An import counts with any of the build tags.
"""
from __future__ import annotations

import argparse
import json
import os
import re
import subprocess
import sys
import textwrap
from collections.abc import Iterable, Iterator
from pathlib import Path
from typing import Any, NamedTuple

TOP = Path(__file__).resolve().parents[1]
PAGE = TOP / "docs" / "architecture-programs.md"
ROOT = "pippinterm/"
HEADING = "## The packages of Go"

WIDTH = 120
"""Of a line of the page."""

TAGS = "libsqlite3", "libsqlite3,crashpoints,storm", "libsqlite3,pages"
"""Combinations of build tags. Each source is in one of them."""


class Folder(NamedTuple):
    """A folder at the top of go/: what it has, and which others its packages may import."""

    what: str
    may_import: tuple[str, ...]


FOLDERS = {
    "cmd": Folder(
        "the programs: options, and what connects the packages", ("storm", "broker", "platform", "internal", "osb")
    ),
    "examples": Folder("a broker and a platform of your own ([go.md](go.md))", ("broker", "platform", "osb")),
    "storm": Folder(
        "tests of any broker and any platform: cases of the standard, and storms",
        ("broker", "platform", "internal", "osb"),
    ),
    "broker": Folder("the broker: the order of its writes, stores, backends", ("internal", "osb")),
    "platform": Folder(
        "the platform: the order of its writes, stores, client, vault, API and page", ("internal", "osb")
    ),
    "internal": Folder("what the others share, and programs outside of this repository can't import", ("osb",)),
    "osb": Folder("the library: values, wire, tables, texts, by cgo", ()),
}
"""The folders, the highest first."""

STRICT = "internal", "osb"
"""The folders whose tests follow the rules, too. Other tests may import any package."""


class Package(NamedTuple):
    """A package: its path below go/, its name, what it is for, and the paths that its sources and its tests import."""

    path: str
    name: str
    what: str
    imports: frozenset[str]
    tests: frozenset[str] = frozenset()

    @property
    def folder(self) -> str:
        """The folder at the top of go/."""
        return self.path.partition("/")[0]

    @property
    def own(self) -> list[str]:
        """The packages of go/ that it imports."""
        return ours(self.imports)

    @property
    def others(self) -> list[str]:
        """The libraries of others that it imports."""
        return sorted({library(path) for path in self.imports if "." in path.partition("/")[0]})


Packages = dict[str, Package]
"""Packages by their paths."""


def ours(paths: Iterable[str]) -> list[str]:
    """Those of the paths that are packages of go/, below go/."""
    return sorted(path.removeprefix(ROOT) for path in paths if path.startswith(ROOT))


def library(path: str) -> str:
    """A library as a reader names it: lib/pq for github.com/lib/pq/oid."""
    host, *parts = path.split("/")
    return "/".join(parts[:2]) if host == "github.com" else "/".join([host, *parts[:2]])


def packages() -> Packages:
    """The packages of go/."""
    found: Packages = {}
    for tags in TAGS:
        line = [
            str(TOP / "scripts" / "go"),
            "list",
            "-json=ImportPath,Name,Doc,Imports,TestImports,XTestImports",
            "./...",
        ]
        environment = {**os.environ, "GOFLAGS": f"-tags={tags}"}
        listed = subprocess.run(line, check=True, stdout=subprocess.PIPE, text=True, env=environment).stdout
        for now in map(package, objects(listed)):
            before = found.get(now.path, now)
            found[now.path] = now._replace(imports=now.imports | before.imports, tests=now.tests | before.tests)
    return found


def objects(text: str) -> Iterator[dict[str, Any]]:
    """The objects of JSON in a text, one after the other."""
    decoder, at = json.JSONDecoder(), 0
    while at < len(text):
        found, end = decoder.raw_decode(text, at)
        yield found
        at = len(text) - len(text[end:].lstrip())


def package(listed: dict[str, Any]) -> Package:
    """A package as `go list` describes it. It is for what the first sentence of its comment says."""
    path = listed["ImportPath"].removeprefix(ROOT)
    subject = rf"((Package|Program) )?{re.escape(path.rpartition('/')[2])} ((is|has) )?"
    what = re.sub(rf"^({subject})", "", listed.get("Doc", "")).rstrip(".:")
    return Package(
        path,
        listed["Name"],
        re.sub("^A ", "a ", what).replace("|", "\\|"),
        frozenset(listed.get("Imports", [])),
        frozenset([*listed.get("TestImports", []), *listed.get("XTestImports", [])]),
    )


def mistakes(of: Packages) -> list[str]:
    """What the rules forbid: each import, and each name of a folder."""
    found = []
    for path, package_ in sorted(of.items()):
        if package_.folder not in FOLDERS:
            found.append(f"go/{package_.folder} isn't one of the folders of go/: {', '.join(FOLDERS)}")
            continue
        if package_.name not in ("main", path.rpartition("/")[2]):
            found.append(f"the folder go/{path} has the package {package_.name}. Give both one name")
        if not package_.what:
            found.append(f"the package {path} has no comment that says what it is for")
        may = (package_.folder, *FOLDERS[package_.folder].may_import)
        for other in ours(package_.imports | package_.tests if package_.folder in STRICT else package_.imports):
            if other.partition("/")[0] not in may:
                found.append(f"{path} imports {other}, but {package_.folder} may import only {', '.join(may)}")
    return found


def chain(of: Packages) -> list[str]:
    """One of the longest chains of imports, from the top."""
    longest: dict[str, list[str]] = {}

    def below(path: str) -> list[str]:
        if path not in longest:  # Go rejects a circle
            chains = (below(other) for other in of[path].own)
            longest[path] = [path, *max(chains, key=len, default=[])]
        return longest[path]

    return max((below(path) for path in sorted(of)), key=len)


def picture(of: Packages) -> Iterator[str]:
    """The folders with their packages, and which folder imports which, as a picture of Mermaid."""
    yield "```mermaid"
    yield "flowchart TD"
    for folder in FOLDERS:
        paths = [package_.path for package_ in in_folder(of, folder)]
        below = [path.removeprefix(f"{folder}/") for path in paths if path != folder]
        lines = [", ".join(below[at : at + 4]) for at in range(0, len(below), 4)]
        yield f'    {folder}["{"<br/>".join([f"<b>{folder}</b>", *lines])}"]'
    for folder in FOLDERS:
        imported = {other.partition("/")[0] for package_ in in_folder(of, folder) for other in package_.own} - {folder}
        if imported:
            yield f"    {folder} --> {' & '.join(target for target in FOLDERS if target in imported)}"
    yield "```"


def in_folder(of: Packages, folder: str) -> list[Package]:
    """The packages of a folder, in the order of their paths."""
    return [package_ for _, package_ in sorted(of.items()) if package_.folder == folder]


def section(of: Packages) -> str:
    """The section, without its heading."""
    longest = chain(of)
    lines = [
        *wrapped(
            "`scripts/go_packages.py` writes this section from `scripts/go list` and the comments of the packages. "
            "`checks/go` fails if the section isn't current, or if a package imports what it may not. Imports of tests "
            "and of Go's own packages are left out. The arrows show which folder imports which:"
        ),
        "",
        *picture(of),
        "",
        *wrapped(f"The longest chain of imports has {len(longest)} packages: {code(longest)}."),
        "",
        *wrapped(
            "The packages of a folder may import each other, and those of the folders in the last column. "
            f"In {' and '.join(f'`{name}`' for name in STRICT)}, that holds for tests, too:"
        ),
        "",
        "| folder of `go/` | what it has | may import |",
        "|---|---|---|",
    ]
    for folder, about in FOLDERS.items():
        lines.append(f"| `{folder}` | {about.what} | {code(about.may_import) or 'nothing'} |")
    for folder in FOLDERS:
        lines += ["", f"### The folder `{folder}`", "", "| package | what it is for | imports |", "|---|---|---|"]
        for each in in_folder(of, folder):
            imports = ", ".join([*together(each.own), *each.others])
            lines.append(f"| `{each.path}` | {each.what} | {imports or 'nothing'} |")
    return "\n".join(lines) + "\n"


def wrapped(text: str) -> list[str]:
    """A paragraph in lines."""
    return textwrap.wrap(text, WIDTH, break_long_words=False, break_on_hyphens=False)


def together(paths: list[str]) -> list[str]:
    """The paths as code, with those below one folder in one: `internal/{crash,pg}`."""
    found = []
    for folder in FOLDERS:
        below = [path.removeprefix(f"{folder}/") for path in paths if path.startswith(f"{folder}/")]
        if folder in paths:
            found.append(f"`{folder}`")
        if len(below) == 1:
            found.append(f"`{folder}/{below[0]}`")
        elif below:
            found.append(f"`{folder}/{{{','.join(below)}}}`")
    return found


def code(names: Iterable[str]) -> str:
    return ", ".join(f"`{name}`" for name in names)


def with_section(page: str, text: str) -> str:
    """A page with this section below HEADING, up to the next heading of the same level."""
    found = re.search(rf"^{re.escape(HEADING)}\n.*?(?=^## |\Z)", page, re.MULTILINE | re.DOTALL)
    if found is None:
        sys.exit(f"scripts/go_packages.py: the page has no heading {HEADING!r}")
    return f"{page[: found.start()]}{HEADING}\n\n{text}\n{page[found.end():]}"


def main() -> int:
    parser = argparse.ArgumentParser("scripts/go_packages.py", description="Write which package of go/ imports which.")
    parser.add_argument("--check", action="store_true", help="write nothing")
    is_check = parser.parse_args().check
    of = packages()
    wrong = mistakes(of)
    page = PAGE.read_text(encoding="utf-8")
    new = with_section(page, section(of))
    if new != page and is_check:
        wrong.append(f"{PAGE.relative_to(TOP)}: the section isn't current. Run scripts/go_packages.py")
    elif new != page:
        PAGE.write_text(new, encoding="utf-8")
    for mistake in wrong:
        print(mistake)
    return bool(wrong)


if __name__ == "__main__":
    sys.exit(main())
