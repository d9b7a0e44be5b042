#!/usr/bin/env python3
"""Copy files and the output of commands into the documents: `scripts/embed.py [--check] [PAGE ..]`.

Two kinds of fenced block are embedded:

- below a line `<!-- FILE -->`, the block is that file, named from the top of the repository
- a block that opens with ```console has `$ COMMAND` in its first line, and below it what the command writes on standard
  output and standard error, with nothing on standard input

With --check nothing is written: each page that would change is named, and the status is 1. OSB_REPLAY names the program
to run in place of ./osb-replay.
"""
from __future__ import annotations

import argparse
import os
import re
import subprocess
import sys
from pathlib import Path

TOP = Path(__file__).resolve().parents[1]
BLOCK = re.compile(
    r"^(?:(?P<mark><!-- (?P<file>\S+) -->\n```\w*\n)|(?P<line>```console\n\$ (?P<command>[^\n]+)\n))(?P<old>.*?)^```$",
    re.MULTILINE | re.DOTALL,
)
MARK = re.compile(r"^\s*<!--|^```console", re.MULTILINE)


def embedded(block: re.Match[str]) -> str:
    """The block with the text that belongs into it."""
    if block["file"]:
        text = (TOP / block["file"]).read_text(encoding="utf-8")
    else:
        command = re.sub(r"^\./osb-replay", os.environ.get("OSB_REPLAY", "./osb-replay"), block["command"])
        text = subprocess.run(
            command, shell=True, cwd=TOP, stdin=subprocess.DEVNULL, stdout=subprocess.PIPE, stderr=subprocess.STDOUT
        ).stdout.decode()
    if re.search("^```", text, re.MULTILINE) or not text.endswith("\n"):
        raise ValueError(f"{block['file'] or block['command']}: it has a fence in it, or an unfinished last line")
    return f"{block['mark'] or block['line']}{text}```"


def main() -> int:
    """Embed, or check; the exit status."""
    parser = argparse.ArgumentParser("scripts/embed.py", description="Copy files and output into the documents.")
    parser.add_argument("--check", action="store_true", help="write nothing, and fail if a page would change")
    parser.add_argument("pages", nargs="*", type=Path, help="README.md, CONTRIBUTING.md and docs/*.md by default")
    given = parser.parse_args()
    status = 0
    for page in given.pages or sorted([*TOP.glob("*.md"), *TOP.glob("docs/*.md")]):
        old = page.read_text(encoding="utf-8")
        try:
            new, count = BLOCK.subn(embedded, old)
        except (OSError, ValueError) as error:
            sys.exit(f"scripts/embed.py: {page}: {error}")
        if count != len(MARK.findall(old)):
            sys.exit(f"scripts/embed.py: {page}: a mark has no block below it, or a console block has no command")
        if new != old and given.check:
            print(f"{page}: differs from what it embeds. Run scripts/embed.py.")
            status = 1
        elif new != old:
            page.write_text(new, encoding="utf-8")
    return status


if __name__ == "__main__":
    sys.exit(main())
