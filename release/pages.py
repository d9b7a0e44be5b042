"""The manual pages of the programs that write none themselves, made of what their --help prints."""

from __future__ import annotations

import re
from pathlib import Path
from typing import Iterator

from release.sources import TOP, run

ABOUT = {
    "osb-audit": "compare the journals of a broker and a platform with the proved model of both",
    "osb-replay": "replay a schedule of what happens between a platform and a service broker",
    "osb-replay-log": "replay a log of any length of what happens between a platform and a service broker",
}
COMMANDS = {"osb-replay": "replay trace network table", "osb-replay-log": "replay split merge"}
_ITEM = re.compile(r"(?:  (?=\S)| {3,6}(?=\S.* {2}))(\S+(?: \S+)*)(?: {2,}(.*))?")
"""The first line of an item: an option, a command or a status, and what it means."""


def help_of(name: str, replay: Path) -> dict[str, str]:
    """What a program prints with --help, by itself and for each of its commands. `replay`: the program osb-replay."""
    program = replay if name == "osb-replay" else TOP / name
    environment = {"OSB_REPLAY": str(replay), "COLUMNS": "100"}
    commands = ["", *COMMANDS.get(name, "").split()]
    texts = {command: run(program, *command.split(), "--help", environment=environment) for command in commands}
    return {name: re.sub(r"(processors): \d+", r"\1", text) for name, text in texts.items()}  # those of this machine


def page(name: str, texts: dict[str, str], version: str, month: str) -> str:
    """The manual page, in roff."""
    lines = [f'.TH {name.upper()} 1 "{month}" "osb {version}" "User Commands"']
    lines += [".SH NAME", _plain(f"{name} - {ABOUT[name]}")]
    for command, text in texts.items():
        lines += [f".SH THE COMMAND {command.upper()}"] if command else []
        heading = ".SS" if command else ".SH"
        (usage,) = re.findall(r"^[Uu]sage: (.*?)\n(?:\n|$)", text, re.MULTILINE | re.DOTALL)
        lines += [
            f"{heading} SYNOPSIS",
            ".nf",
            *map(_plain, re.split(r"\n {7}", usage)),
            ".fi",
            f"{heading} DESCRIPTION",
        ]
        for paragraph in re.split(r"\n\n+", text.strip("\n")):
            lines += _paragraph(paragraph.split("\n"), heading)
    others = ", ".join(f"{program} (1)" for program in (*ABOUT, "osb-broker", "osb-platform") if program != name)
    return "".join(f"{line}\n" for line in [*lines, ".SH SEE ALSO", _plain(others)] if line)


def _paragraph(lines: list[str], heading: str) -> Iterator[str]:
    """A paragraph of the help: a heading with its items, lines as they stand, or a text."""
    if re.fullmatch(r"[A-Za-z ]+:", lines[0]):
        yield f"{heading} {lines[0][:-1].upper()}"
        for line in lines[1:]:
            item = _ITEM.fullmatch(line)
            yield from (".TP", f".B {_plain(item[1])}", _plain(item[2] or "")) if item else (_plain(line.strip()),)
    elif lines[0].startswith(" "):
        yield from (".PP", ".nf", *map(_plain, lines), ".fi")
    elif not lines[0].lower().startswith("usage: "):
        yield from (".PP", *map(_plain, lines))


def _plain(text: str) -> str:
    """The text, of which roff takes nothing for a request or an escape."""
    text = text.replace("\\", "\\e").replace("-", "\\-")
    return f"\\&{text}" if text.startswith((".", "'")) else text
