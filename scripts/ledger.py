"""The ledger of the proofs: what was proved and refused before, and what a run of the gate does again.

ledger.txt has a line for each crate that was proved, for each mutant that the prover refused, and for each
prebuilt file that was compared with what its sources give:

    NAME                   DIGEST  proved
    NAME/FILE.edit         DIGEST  refused
    prebuilt/MACHINE/FILE  DIGEST  built

The digest is a SHA-256 over everything that the result depends on. For a crate and a mutant that is the version line of
the kit, HANDLES, the crate's line of crates.txt, all its files, the same of every crate below it, and the mutant. For a
prebuilt file it is its line of MANIFEST, which has the digests of the file and of its sources, and the kit. So a line
that fits says what a run from nothing would find.

A run does what has no line that fits. Of the proofs and mutants that have one, it does a tenth. The hash of the commit
chooses which, so nobody knows before whether a false line will be found. A crate that stands on many others is chosen
less often, since these are proved with it.
"""

from __future__ import annotations

import hashlib
import math
import re
from collections.abc import Iterable, Mapping
from pathlib import Path
from typing import NamedTuple

FILE = "ledger.txt"
HEADING = """\
# What was proved and what was refused, by the digest of everything that the result depends on: scripts/ledger.py.
# ./check writes this file. Commit it with the change of a crate.
"""
PROVED, REFUSED, BUILT = "proved", "refused", "built"
MUST_FAIL = "must-fail"
# What a check writes into a crate's folder.
OUT = "out"
SHARE = 10
"""One line of so many that fit is done again."""


class Line(NamedTuple):
    """What came of a proof or of a mutant, and the digest of all that it depends on."""

    digest: str
    result: str


Ledger = Mapping[str, Line]
Rows = Mapping[str, tuple[str, list[str]]]
"""The lines of crates.txt, by the crate, each with the crates of this repository below it."""


class Plan(NamedTuple):
    """What a run proves and tries: names of crates and of mutants. `chosen` has those of them whose line fits."""

    names: frozenset[str]
    chosen: frozenset[str]

    def crates(self) -> set[str]:
        return {crate_of(name) for name in self.names}

    def mutants(self) -> list[str]:
        return sorted(name for name in self.names if is_mutant(name))


def is_mutant(name: str) -> bool:
    return "/" in name


def crate_of(name: str) -> str:
    return name.partition("/")[0]


def rows_of(top: Path) -> Rows:
    lines = [line.partition("#")[0].strip() for line in (top / "crates.txt").read_text().splitlines()]
    heads = {line.partition(":")[0].split()[0]: line for line in lines if line}
    return {
        name: (line, [use for use in line.partition(":")[2].split() if use in heads]) for name, line in heads.items()
    }


def below(rows: Rows, names: Iterable[str]) -> set[str]:
    """These crates and all below them."""
    found: set[str] = set()
    left = [*names]
    while left:
        name = left.pop()
        if name not in found:
            found.add(name)
            left += rows[name][1]
    return found


def lines_now(top: Path, kit: str) -> dict[str, Line]:
    """The line of each crate and each mutant as they are now, if all goes well."""
    rows = rows_of(top)
    handles = top / "HANDLES"
    ground = f"{kit}\n{handles.read_text() if handles.exists() else ''}"
    digests: dict[str, str] = {}

    def digest(name: str) -> str:
        if name not in digests:
            line, uses = rows[name]
            parts = [ground, line, *(digest(use) for use in uses), *files_of(top / "crates" / name)]
            digests[name] = digest_of(parts)
        return digests[name]

    found: dict[str, Line] = {}
    for name in rows:
        found[name] = Line(digest(name), PROVED)
        for mutant in mutants_of(top, name):
            found[mutant] = Line(digest_of([digest(name), edit_of(top, mutant).read_text()]), REFUSED)
    return found


def prebuilt_now(top: Path) -> dict[str, Line]:
    """The line of each prebuilt file as MANIFEST has it now, if the file is what its sources give."""
    found = {}
    for manifest in sorted((top / "prebuilt").glob("*/MANIFEST")):
        for line in manifest.read_text().splitlines():
            if line and not line.startswith("#"):
                name = manifest.with_name(line.split()[0]).relative_to(top)
                found[str(name)] = Line(digest_of([line]), BUILT)
    return found


def mutants_of(top: Path, crate: str) -> list[str]:
    """The names of the crate's mutants."""
    return sorted(f"{crate}/{path.name}" for path in (top / "crates" / crate / MUST_FAIL).glob("*.edit"))


def edit_of(top: Path, mutant: str) -> Path:
    """The file of a mutant."""
    crate, _, file = mutant.partition("/")
    return top / "crates" / crate / MUST_FAIL / file


def files_of(folder: Path) -> list[str]:
    """The name and the digest of each file of a crate but its mutants and what a check has written."""
    found = []
    for path in sorted(folder.rglob("*")):
        place = path.relative_to(folder)
        if place.parts[0] not in (MUST_FAIL, OUT) and (path.is_file() or path.is_symlink()):
            found.append(f"{place} {hashlib.sha256(path.read_bytes()).hexdigest()}")
    return found


def digest_of(parts: Iterable[str]) -> str:
    """A SHA-256 over these texts, which no other list of texts has."""
    whole = hashlib.sha256()
    for part in parts:
        text = part.encode()
        whole.update(b"%d:" % len(text) + text)
    return whole.hexdigest()


def read(top: Path) -> dict[str, Line]:
    """The ledger. A file that isn't there has no lines."""
    try:
        text = (top / FILE).read_text()
    except FileNotFoundError:
        return {}
    found = {}
    for number, line in enumerate(text.splitlines(), 1):
        if not line or line.startswith("#"):
            continue
        match = re.fullmatch(rf"(\S+) ([0-9a-f]{{64}}) ({PROVED}|{REFUSED}|{BUILT})", line)
        if not match or match[1] in found:
            raise ValueError(f"{FILE}:{number}: this isn't a line of the ledger, or the second one of its name: {line}")
        found[match[1]] = Line(match[2], match[3])
    return found


def add(top: Path, lines: Ledger) -> None:
    """Writes these lines into the ledger, in the place of those of the same names. What no longer exists goes."""
    ledger = {**read(top), **lines}
    names = [*(unit for crate in rows_of(top) for unit in (crate, *mutants_of(top, crate))), *prebuilt_now(top)]
    text = "".join(f"{name} {ledger[name].digest} {ledger[name].result}\n" for name in names if name in ledger)
    new = top / f"{FILE}.new"
    new.write_text(HEADING + text)
    new.replace(top / FILE)  # so that a run that is killed leaves the one or the other


def plan(now: Ledger, ledger: Ledger, rows: Rows, commit: str) -> Plan:
    """What has no line that fits, and a tenth of the others, by the commit's hash. Without a commit, everything."""
    fitting = {name for name, line in now.items() if ledger.get(name) == line}
    chosen = frozenset(choose(fitting, rows, commit) if commit else fitting)
    return Plan(frozenset(now) - fitting | chosen, chosen)


def choose(fitting: set[str], rows: Rows, commit: str) -> set[str]:
    """At least a tenth of these names. A crate is chosen with all its mutants, and with the crates below it: most of
    the cost of a mutant is that of the proofs with which it shares a crate, and a crate is proved over those below.
    """
    chosen: set[str] = set()
    for crate in order_of(rows, commit):
        if len(chosen) * SHARE >= len(fitting):
            break
        chosen |= fitting & (below(rows, [crate]) | {name for name in fitting if crate_of(name) == crate})
    return chosen


def order_of(rows: Rows, commit: str) -> list[str]:
    """The crates in an order that the commit's hash gives. A crate with twice as many below it comes first half as
    often (exponential variates have this property), so that the cost of a run doesn't vary much.
    """

    def wait(crate: str) -> float:
        number = int(digest_of([commit, crate])[:13], 16)
        return -math.log(1 - number / 16**13) * len(below(rows, [crate]))

    return sorted(rows, key=wait)
