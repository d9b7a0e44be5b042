"""The arguments of the command line."""
from __future__ import annotations

import argparse
import os
import re

from osb_replay_log.words import Parser, count, path

PROGRAM = "osb-audit"

_DESCRIPTION = """\
Compares the journals of osb-broker and osb-platform ('--journal') with the proved model of
both. It has osb-replay step the events of each instance, and prints the first event after
which the model and a journal differ, and what both sides disagree about at the end."""

_EPILOGUE = """\
    osb-audit /var/lib/osb-broker/journal /var/lib/osb-platform/journal

Exit status:
  0   no difference
  1   a difference, or the sides disagree at the end; or more than a tenth of the instances
      weren't judged to their end, and --unjudged isn't given
  2   the command line can't be parsed
  3   more instances than --unjudged allows weren't judged to their end
  4   the report, or a file of the workers, could not be written
  5   out of memory
  70  osb-replay, the library, or the workers, can't be started
  78  change something first: a journal can't be used, or nothing could be judged

If the environment variable OSB_REPLAY is set, it names the program osb-replay. LIBOSB names
the library libosb.so.

docs/audit.md has the details."""


def read(words: list[str]) -> argparse.Namespace:
    """Reads the arguments. `--help` ends the program with status 0, and arguments that are rejected with status 2."""
    parser = Parser(
        PROGRAM,
        description=_DESCRIPTION,
        epilog=_EPILOGUE,
        allow_abbrev=False,
        formatter_class=argparse.RawDescriptionHelpFormatter,
    )
    parser.add_argument("--json", action="store_true", help="print the report as one object of JSON")
    parser.add_argument(
        "--jobs",
        type=count(1, 1024),
        default=len(os.sched_getaffinity(0)),
        metavar="N",
        help="audit with N processes (the number of processors: %(default)s)",
    )
    parser.add_argument(
        "--room",
        type=path,
        metavar="DIR",
        help="keep what the processes share in a work directory in this folder. It needs about as much space as the "
        "journals, uncompressed, and is removed at the end (the system's folder for temporary files)",
    )
    parser.add_argument(
        "--unjudged",
        type=_percent,
        metavar="PERCENT",
        help="the share of the instances, from 0 to 100, that may be left without being judged to their end. If more "
        "are, the status is 3 (without this option: 10, and the status is 1)",
    )
    parser.add_argument(
        "journals",
        nargs="+",
        metavar="JOURNAL",
        help="a file of a journal, plain or gzip, or a folder of such files, of either side",
    )
    return parser.parse_args(words)


def _percent(text: str) -> float:
    if not re.fullmatch(r"[0-9]{1,3}(\.[0-9]{1,6})?", text) or float(text) > 100.0:
        raise argparse.ArgumentTypeError(f"{text!r} is no number from 0 to 100")
    return float(text)
