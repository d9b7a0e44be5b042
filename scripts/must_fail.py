"""Tries the mutants of a crate: wrong bodies that the prover must refuse, several in one check.

`rt must-fail` tries each mutant by a check of its own. Most of such a check goes into what all of them have in common:
proving the crate as it stands, and loading it. So here mutants of different functions are tried together, in a check of
these functions and of what they call, and each must be refused by itself. The prover's output tells them apart: of each
function whose own proof fails it has one of these lines

    note: src/FILE:LINE:COLUMN: it is not proved that ..
    ./proofs/MODULE/../FUNCTION/Answers.antt:LINE:COLUMN: error: ..

with a line in the function, or with its name. A mutant counts as refused only if there is such a line of each function
that it changes, and if there is none of a function that no mutant of the check changes. Whatever isn't refused so is
tried by itself, by `rt must-fail`, whose verdict counts. That a check of a part proves what a check of all does is seen
in checks/gate.
"""

from __future__ import annotations

import re
import shutil
import subprocess
from collections.abc import Iterable, Iterator
from pathlib import Path
from typing import NamedTuple

FAILED = re.compile(
    r"^(?:note: (?P<file>src/\S+?):(?P<line>\d+):\d+: it is not proved that "
    r"|(?:\./)?proofs/(?P<proof>\S+?)/[^/\s]+\.antt:\d+:\d+: error: )",
    re.MULTILINE,
)
IMPL = re.compile(r"^impl(?:<[^{]*?>)? +(?:(?:\w+::)*(?P<trait>\w+)(?:<[^{]*?>)? +for +)?&?(?:\w+::)*(?P<type>\w+)")
HEAD = re.compile(r'^ *(?:pub(?:\([^)]*\))? +)?(?:const +)?(?:unsafe +)?(?:extern +"C" +)?fn +(\w+)')
NOT_PROVED = re.compile(r"^(?:logic=not-proved|only=\d+ proved=\d+$)", re.MULTILINE)
JUDGED_NOTHING = 2
REFUSED = re.compile(r"^rt: must-fail [^/\n]+/(\S+): refused, as it must be", re.MULTILINE)


class Function(NamedTuple):
    """A function: its lines in a file below the crate's folder, its name, and that of the type whose method it is with
    the trait of which it is one, as the prover writes both.
    """

    file: str
    first: int
    last: int
    name: str
    owner: str = ""

    def fails(self, failure: re.Match[str]) -> bool:
        """Whether the line that FAILED has matched says so."""
        if failure["file"]:
            return failure["file"] == self.file and self.first <= int(failure["line"]) <= self.last
        *folders, name = failure["proof"].split("/")
        return name == self.name and folders[: len(self.module())] == self.module()

    def module(self) -> list[str]:
        return module_of(self.file)

    def path(self) -> str:
        """Its name for `rt check --only`."""
        return "::".join([*self.module(), *filter(None, [self.owner]), self.name])


class Change(NamedTuple):
    """A piece of a file's text, and what stands there instead."""

    file: str
    begin: int
    end: int
    new: str


class Mutant(NamedTuple):
    name: str
    changes: list[Change]
    functions: set[Function]


class Unfit(Exception):
    """A mutant that can't be tried together with others."""


def read(edit: Path, crate: Path) -> Mutant:
    """The mutant in this file, for the crate in this folder. Raises Unfit if a change stands in no function, or depends
    on another one, or if it can't be applied at all, or if the prover's output doesn't tell its function from another.
    """
    changes: list[Change] = []
    file, old = "", ""
    for line in edit.read_text().splitlines():
        if line.startswith("file: "):
            file = line.removeprefix("file: ").strip()
        elif line.startswith("old: "):
            old = line.removeprefix("old: ")
        elif line.startswith("new:"):
            changes.append(change_of(crate, file, old, line.removeprefix("new:").removeprefix(" ")))
    if not changes:
        raise Unfit(f"{edit.name} changes nothing")
    functions = {function_of(crate, change) for change in changes}
    for function in functions:
        if has_namesake(crate, function):
            raise Unfit(f"{edit.name} changes one of the functions {function.name}, of which one has proofs")
    return Mutant(edit.name, changes, functions)


def has_namesake(crate: Path, function: Function) -> bool:
    """Whether another function has its name, and a line that reports the other one as failed would count for it: such a
    line has the module and the name, but no type.
    """
    for file in (crate / "src").rglob("*.rt"):
        inside = module_of(str(file.relative_to(crate)))
        heads = [HEAD.match(line) for line in file.read_text().splitlines()]
        count = sum(head is not None and head[1] == function.name for head in heads)
        others = count - (str(file.relative_to(crate)) == function.file)
        is_below = inside[: len(function.module())] == function.module()
        proofs = crate.joinpath("proofs", *inside)
        if others > 0 and is_below and any(path.is_dir() for path in proofs.rglob(function.name)):
            return True
    return False


def module_of(file: str) -> list[str]:
    """The names of the modules in which the functions of a file are."""
    module = file.removeprefix("src/").removesuffix(".rt").removesuffix("/mod")
    return [] if module in ("lib", "main") else module.split("/")


def change_of(crate: Path, file: str, old: str, new: str) -> Change:
    text = (crate / file).read_text() if file.startswith("src/") and (crate / file).is_file() else ""
    if not old or text.count(old) != 1:
        raise Unfit(f"{file} doesn't have this text once: {old}")
    begin = text.index(old)
    return Change(file, begin, begin + len(old), new)


def function_of(crate: Path, change: Change) -> Function:
    """The function in which a change stands, with its attributes. It ends with the first brace that closes at the depth
    of its head.
    """
    text = (crate / change.file).read_text()
    lines = text.splitlines()
    here = text.count("\n", 0, change.begin)
    for first in range(here, -1, -1):
        head = lines[first]
        if match := HEAD.match(head):
            closing = head[: len(head) - len(head.lstrip())] + "}"
            last = next((number for number in range(first, len(lines)) if lines[number] == closing), first)
            if here <= last:
                while first > 0 and lines[first - 1].lstrip().startswith("#["):
                    first -= 1
                return Function(change.file, first + 1, last + 1, match[1], owner_of(lines[: first + 1]))
    raise Unfit(f"{change.file}: the change stands in no function: {lines[here].strip()}")


def owner_of(lines: list[str]) -> str:
    """The type and the trait of the block in which the last of these lines stands, or nothing."""
    if not lines[-1].startswith(" "):
        return ""
    match = next((match for line in reversed(lines) if (match := IMPL.match(line))), None)
    return match["type"] + (match["trait"] or "") if match else ""


def groups(mutants: Iterable[Mutant]) -> list[list[Mutant]]:
    """The mutants, so that no two of a group change one function: as few groups as that allows, the largest first."""
    found: list[list[Mutant]] = []
    for mutant in mutants:
        for group in found:
            if not any(mutant.functions & other.functions for other in group):
                group.append(mutant)
                break
        else:
            found.append([mutant])
    return found


def apply(group: Iterable[Mutant], crate: Path) -> None:
    """Changes the files of the crate in this folder. Each file is replaced and not written over, since it may have a
    second name elsewhere.
    """
    by_file: dict[str, list[Change]] = {}
    for mutant in group:
        for change in mutant.changes:
            by_file.setdefault(change.file, []).append(change)
    for file, changes in by_file.items():
        text = (crate / file).read_text()
        for change in sorted(changes, key=lambda it: it.begin, reverse=True):
            text = text[: change.begin] + change.new + text[change.end :]
        (crate / file).unlink()
        (crate / file).write_text(text)


def refused(group: Iterable[Mutant], status: int, output: str) -> set[str]:
    """The names of the mutants of the group that a check with this output refuses, each by itself.

    If a function fails that none of them changes, there are none: then one failure may be the cause of another.
    """
    group = [*group]
    if status != 1 or not NOT_PROVED.search(output):
        return set()
    failures = [*FAILED.finditer(output)]
    changed = [function for mutant in group for function in mutant.functions]
    if not all(any(part.fails(failure) for part in changed) for failure in failures):
        return set()
    return {mutant.name for mutant in group if all(any(map(part.fails, failures)) for part in mutant.functions)}


def only(group: Iterable[Mutant]) -> list[str]:
    """The words for a check of the functions that a group changes, and of what they call."""
    names = sorted({function.path() for mutant in group for function in mutant.functions})
    return [word for name in names for word in ("--only", name)]


def fit(edits: Iterable[Path], crate: Path) -> Iterator[Mutant]:
    """The mutants that can be tried together with others."""
    for edit in edits:
        try:
            yield read(edit, crate)
        except Unfit:
            continue


def try_all(crate: Path, edits: Iterable[Path]) -> Iterator[tuple[str, str]]:
    """Tries these mutants of the crate in this folder, over the libraries that are built below it.

    Gives the name of each that the prover refuses, and how that was seen.
    """
    left = {edit.name: edit for edit in edits}
    sources = crate / "src"
    kept = crate.parent / f"{crate.name}.src"
    shutil.copytree(sources, kept)
    for group in groups(fit(left.values(), crate)):
        apply(group, crate)
        status, output = run(crate, "check", "--jobs", "1", *only(group))
        if status == JUDGED_NOTHING:  # a function has another name for the prover
            status, output = run(crate, "check", "--jobs", "1")
        shutil.rmtree(sources)
        shutil.copytree(kept, sources)
        for name in refused(group, status, output):
            del left[name]
            yield name, f"in a check of {len(group)}"
    shutil.rmtree(kept)
    if left:
        yield from try_each(crate, left.values())


def try_each(crate: Path, edits: Iterable[Path]) -> Iterator[tuple[str, str]]:
    """Tries these mutants one at a time, by `rt must-fail`, over what a check of the crate as it stands has proved."""
    folder = crate / "must-fail"
    folder.mkdir()
    for edit in edits:
        shutil.copy(edit, folder / edit.name)
    run(crate, "check", "--jobs", "1")
    _, output = run(crate.parent.parent, "must-fail", crate.name)
    print(output, end="", flush=True)
    yield from ((name, "by rt must-fail") for name in REFUSED.findall(output))


def run(folder: Path, *arguments: str) -> tuple[int, str]:
    """Runs rt in this folder. Returns its status and its output."""
    ran = subprocess.run(
        ["rt", *arguments],
        cwd=folder,
        stdin=subprocess.DEVNULL,
        stdout=subprocess.PIPE,
        stderr=subprocess.STDOUT,
        text=True,
        errors="replace",
    )
    return ran.returncode, ran.stdout
