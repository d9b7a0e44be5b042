"""What the broker and the platform print of their own commands and options."""
from __future__ import annotations

import re
import subprocess

from docs.pages import TOP


def help_of(program: str, *arguments: str) -> str:
    """What the program prints for these arguments and --help. It judges the options before it prints."""
    ran = subprocess.run([TOP / program, *arguments, "--help"], capture_output=True, text=True)
    assert ran.returncode == 0, ran.stderr
    return ran.stdout


def commands_of(program: str, *command: str) -> list[str]:
    """The commands of the program, or of one of its commands."""
    lists = re.findall(r"^[A-Z][\w ]+:\n((?:  [a-z]+ +\S.*\n)+)", help_of(program, *command), re.MULTILINE)
    return [line.split()[0] for lines in lists for line in lines.splitlines() if not line.startswith("  osb-")]


def options_of(text: str) -> list[str]:
    """The options in a help, with the two hyphens."""
    return re.findall(r"^(?:  -\w, | {6})(--[\w-]+)", text, re.MULTILINE)


def is_read_by(program: str, arguments: list[str]) -> None:
    """Fails if the first argument isn't a command of the program, or the others aren't options of this command. The
    arguments of a shell function (`$@`) are anything.
    """
    first, *others = arguments
    if first == "$@":
        return
    assert first in commands_of(program)
    inner = commands_of(program, first)
    assert inner == [] or others[0] in inner
    help_of(program, *arguments)
