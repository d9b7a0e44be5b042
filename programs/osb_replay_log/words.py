"""The arguments of the command line."""
from __future__ import annotations

import argparse
import os
import re
from typing import Callable, NoReturn

from osb_replay_log import schedulers
from osb_replay_log.faults import shown

PROGRAM = "osb-replay-log"

_UNITS = {"": 0, "K": 10, "M": 20, "G": 30, "T": 40}

_DESCRIPTION = """\
Replays a log of any length of what happens between a platform and a service broker, and
reports what the platform records and what the broker holds in the end. It splits the log
by instance, runs osb-replay on each part, and merges the reports."""

_EPILOGUE = """\
    osb-replay-log replay january.log february.log.gz

A log is written in the language of schedules ('osb-replay replay --help'). It has any
number of lines, in one file or several, plain or gzip. The files are read as one log, in
the order of the command line. One instance has at most 100,000 lines, with the plans and
the restarts.

The workers are Dask's if python3-distributed and python3-cryptography are installed, and
processes of this machine if not.

Exit status:
  0   done
  1   the log has a fault, or too many lines of one instance: see standard error
  2   the command line can't be parsed
  3   a log could not be read
  4   the report, or a file of the workers, could not be written
  5   out of memory
  70  osb-replay, or the workers, can't be started
  78  change something first: the folder of --parts, or that of --room

If the environment variable OSB_REPLAY is set, it names the program osb-replay.

docs/logs.md has the details."""

_SPLIT = """\
Splits the log, so that another engine can replay it. Each part becomes a schedule,
DIR/part-000001.schedule and so on. That engine runs 'osb-replay replay' on each part, and
writes its standard output to part-000001.report and its standard error to part-000001.err,
beside the part. Then run 'merge'."""

_MERGE = """\
Merges the reports beside the parts of a log into the report of the whole log. If a part has
a fault, prints the first fault of the log instead."""


class Parser(argparse.ArgumentParser):
    """Its errors are on one line, whatever a file is called that was taken for an option."""

    def error(self, message: str) -> NoReturn:
        super().error(shown(message))


def read(words: list[str]) -> argparse.Namespace:
    """Reads the arguments. `--help` ends the program with status 0, and arguments that are rejected with status 2."""
    parser = _parser()
    asked = parser.parse_args(words)
    why = schedulers.refused(asked) if asked.command != "merge" else None
    if why is not None:
        parser.error(why)
    return asked


def _parser() -> argparse.ArgumentParser:
    shape = argparse.RawDescriptionHelpFormatter
    parser = Parser(PROGRAM, description=_DESCRIPTION, epilog=_EPILOGUE, allow_abbrev=False, formatter_class=shape)
    commands = parser.add_subparsers(dest="command", metavar="COMMAND", required=True)

    def command(name: str, help_: str, text: str) -> argparse.ArgumentParser:
        return commands.add_parser(name, help=help_, description=text, allow_abbrev=False, formatter_class=shape)

    replay = command("replay", "replay a log", "Replays a log.")
    replay.add_argument(
        "--settle",
        action="store_true",
        help="report the state of each instance after three more rounds in which no message is lost",
    )
    _saved(replay)
    _workers(replay, "(the system's folder for temporary files)")
    split = command("split", "split a log for another engine", _SPLIT)
    split.add_argument("--parts", type=path, required=True, metavar="DIR", help="a new folder, or an empty one")
    _workers(split, "(the folder of --parts, whose file system it must be on)")
    merge = command("merge", "merge the reports of the parts", _MERGE)
    _saved(merge)
    _room(
        merge,
        "if there are more than 200 parts, merge in a work directory in this folder, which needs as much space as all "
        "reports. It is removed at the end (the system's folder for temporary files)",
    )
    merge.add_argument("parts", metavar="DIR", help="the folder that 'split' wrote")
    return parser


def _saved(parser: argparse.ArgumentParser) -> None:
    parser.add_argument("--saved", action="store_true", help="add the platform's saved record, as a last line")


def _room(parser: argparse.ArgumentParser, help_: str) -> None:
    parser.add_argument("--room", type=path, metavar="DIR", help=help_)


def path(text: str) -> str:
    """Its absolute path, since workers may have another current folder."""
    if not text:
        raise argparse.ArgumentTypeError("it is empty")
    return os.path.abspath(text)


def _workers(parser: argparse.ArgumentParser, room: str) -> None:
    parser.add_argument(
        "--workers",
        type=count(1, 1024),
        default=len(os.sched_getaffinity(0)),
        metavar="N",
        help="start N workers on this machine (the number of its processors: %(default)s)",
    )
    parser.add_argument(
        "--engine",
        choices=("dask", "processes"),
        help="whose workers to start (Dask's if it is installed with python3-cryptography)",
    )
    parser.add_argument(
        "--scheduler",
        type=schedulers.address,
        metavar="ADDRESS",
        help="use the workers of a Dask scheduler that runs already, tls://HOST:PORT, or tcp://HOST:PORT without TLS. "
        "The logs, the --room folder and osb-replay must have the same paths on all its machines",
    )
    for option, help_ in (
        ("--tls-ca", "for a tls:// scheduler: the certificates of its authority, in PEM"),
        ("--tls-cert", "for a tls:// scheduler: the certificate of this program, in PEM"),
        ("--tls-key", "for a tls:// scheduler: the key of that certificate, in PEM and without a passphrase"),
    ):
        parser.add_argument(option, type=path, metavar="FILE", help=help_)
    parser.add_argument(
        "--insecure",
        action="store_true",
        help="allow Dask without TLS: with --engine dask every account of this machine, and with a tcp:// scheduler "
        "everyone who reaches its port, can then run programs as you",
    )
    _room(
        parser,
        "keep the spool and the parts' reports in a work directory in this folder. It needs as much space as the log, "
        f"uncompressed, and is removed at the end {room}",
    )
    parser.add_argument(
        "--room-limit",
        type=_size,
        metavar="SIZE",
        help="end with status 4 if the work directory needs more than SIZE bytes. K, M, G or T after the number "
        "multiply it by powers of 1024 (no limit but the free space)",
    )
    parser.add_argument(
        "--part-lines",
        type=count(1, 100_000),
        default=100_000,
        metavar="N",
        help="the most lines of a part (%(default)s)",
    )
    parser.add_argument(
        "--chunk-bytes",
        type=count(1, 1 << 30),
        default=16 << 20,
        metavar="N",
        help="how many bytes of a log a worker reads at once. It needs about five times as much memory (%(default)s)",
    )
    parser.add_argument("logs", nargs="+", metavar="LOG", help="a file of the log")


def count(least: int, most: int) -> Callable[[str], int]:
    """What reads a number from the least to the most."""

    def counted(text: str) -> int:
        if not (text.isascii() and text.isdigit()) or not least <= int(text) <= most:
            raise argparse.ArgumentTypeError(f"{text!r} is no number from {least} to {most}")
        return int(text)

    return counted


def _size(text: str) -> int:
    found = re.fullmatch("([0-9]{1,15})([KMGT]?)", text.upper())
    if found is None or not int(found[1]):
        raise argparse.ArgumentTypeError(f"{text!r} is no size such as 500M or 20G")
    return int(found[1]) << _UNITS[found[2]]
