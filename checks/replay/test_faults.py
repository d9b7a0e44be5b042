"""Each line of the language, and each fault: which one is reported, of which line, and how soon."""

from __future__ import annotations

import os
import subprocess
import threading
from pathlib import Path

import pytest
from replay.running import EXAMPLES, Ran, fault, run, run_from
from replay.worked import ONE, lines, report, schedule, whole

# The texts of one line, by the fault that the line has. If a line has two faults, the first is reported.
FAULTS = [
    ("UnknownWord", "bogus|Restart|RESTART|restarts|restar|restart#|re start|restart,|\\rrestart|restart\\r\\r"),
    ("UnknownWord", "\\r\\r|plans I I|Plan|yes|ok"),
    ("WordCount", "plan|plan S P|create|create I S P|remove|send|deliver|deliver I|repeat I|lose|garble|answer"),
    ("WordCount", "timeout|expire|finish I|gateway I|plan S P sync now|create I S P yes no|remove I I|send I now"),
    ("WordCount", "deliver I done I|repeat I done done|lose I I|garble I I|answer I now|timeout I I|expire I I"),
    ("WordCount", "finish I ok ok|gateway I 502 502|restart now|restart #|restart \\r\\r"),
    ("BadId", "plan x P sync|plan S x sync|create x S P yes|create I x P yes|create I S x yes|remove x"),
    ("BadId", "deliver x done|repeat x done|lose x|garble x|answer {I}|answer I\\r\\r|timeout x|expire 1"),
    ("BadId", "finish x ok|gateway x 502|send 00000000-0000-0000-0000-00000000001"),
    ("BadId", "send 00000000000000000000000000000001"),
    ("BadChoice", "plan S P Sync|plan S P both|create I S P maybe|create I S P ok|deliver I maybe|deliver I ok"),
    ("BadChoice", "repeat I Done|repeat I never|finish I yes|finish I failed|finish I ok\\r\\r|gateway I 499"),
    ("BadChoice", "gateway I 600|gateway I 0502|gateway I 5o2|gateway I 50|gateway I 5000|gateway I +502"),
    ("NotAscii", "# \\303|\\303|\\377|# \\303\\251|b\\303\\251|restart \\303\\251|send \\303\\251"),
    ("NotAscii", "gateway I \\331\\24100"),
    ("LineTooLong", "{511*#}\\r\\r|{511*#}\\r\\r\\303\\251|{513*#}|\\303{512*#}"),
    ("UnknownWord", "bogus x maybe"),
    ("WordCount", "create x S P|deliver x maybe now|finish x"),
    ("BadId", "create x S P maybe|deliver x maybe|gateway x 499|plan S x both|create I maybe x yes"),
]
FAULTY = [(name, text) for name, texts in FAULTS for text in texts.split("|")]
# A fault is reported as soon as the byte that shows it has come.
AT_ONCE = [
    (1, "NotAscii", "whole # caf\\303\\251\\n"),
    (1, "LineTooLong", "whole {513*#}"),
    (1, "UnknownWord", "whole Restart\\n"),
    (1, "WordCount", "whole restart now\\n"),
    (1, "BadId", "whole send 1\\n"),
    (2, "BadChoice", "whole \\ndeliver I never\\n"),
    (2, "LatePlan", "whole restart\\nplan S P sync\\n"),
    (2, "DuplicatePlan", "whole plan S P sync\\nplan S P async\\n"),
    (100_001, "TooManyLines", "whole {100000*\\n}#"),
]


@pytest.mark.parametrize(("name", "text"), FAULTY, ids=[f"{name}: {text}" for name, text in FAULTY])
def test_fault(replay: Path, name: str, text: str) -> None:
    assert run(replay, "replay", given=whole(text)) == fault(1, name)


@pytest.mark.parametrize(("line", "name", "text"), AT_ONCE, ids=[f"line {case[0]}: {case[1]}" for case in AT_ONCE])
def test_at_once(replay: Path, line: int, name: str, text: str) -> None:
    """The input stays open behind the byte that shows the fault, so a program that reads on never ends."""
    there, here = os.pipe()
    with open(here, "wb", buffering=0) as pipe, open(there, "rb") as given:
        writer = threading.Thread(target=pipe.write, args=[schedule(text)], daemon=True)
        writer.start()
        assert run_from(given, replay, "replay") == fault(line, name)
        writer.join(20)


def test_every_status_of_a_gateway(replay: Path) -> None:
    text = lines("plan S P sync; create I S P no") + "".join(f"gateway {ONE} {status}\n" for status in range(500, 600))
    assert run(replay, "replay", given=text) == Ran(0, report([f"{ONE} wanted none"], 101, 0), "")


# ---- whole inputs

FIRST = Ran(0, (EXAMPLES / "first.report").read_text(), "")
NOTHING = Ran(0, report([], 0, 0), "")
# As many lines, each as long, as a schedule may have.
LARGEST = (b"#" * 512 + b"\n") * 100_000


WHOLE = {
    "nothing": (b"", NOTHING),
    "carriage returns": ((EXAMPLES / "first.schedule").read_bytes().replace(b"\n", b"\r\n"), FIRST),
    "a binary file": (b"\177ELF\002\001\001\000\000\000\003\000\076\000", fault(1, "UnknownWord")),
    "not ASCII in a comment": (b"# \303", fault(1, "NotAscii")),
    "the largest": (LARGEST, NOTHING),
}


@pytest.mark.parametrize(("given", "expected"), WHOLE.values(), ids=WHOLE)
def test_whole_input(replay: Path, given: bytes, expected: Ran) -> None:
    assert run(replay, "replay", given=given) == expected


@pytest.mark.parametrize(
    ("byte", "expected"), [(b"#", fault(1, "LineTooLong")), (b"\n", fault(100_001, "TooManyLines"))]
)
def test_51_megabytes_of_one_byte(replay: Path, byte: bytes, expected: Ran) -> None:
    assert run(replay, "replay", given=byte * len(LARGEST)) == expected


def test_what_follows_is_not_read(replay: Path, tmp_path: Path) -> None:
    """Of an input that is too long, the program reads no byte more than the one that shows it."""
    (tmp_path / "in").write_bytes(LARGEST + LARGEST[:5000])
    with open(tmp_path / "in", "rb") as given:
        assert run_from(given, replay, "replay") == fault(100_001, "TooManyLines")
        assert os.lseek(given.fileno(), 0, os.SEEK_CUR) == len(LARGEST) + 1


@pytest.mark.parametrize(
    ("command", "expected"),
    [(["yes", ""], fault(100_001, "TooManyLines")), (["tr", "\\0", "#"], fault(1, "LineTooLong"))],
    ids=["empty lines", "one line"],
)
def test_input_without_end(replay: Path, command: list[str], expected: Ran) -> None:
    with open("/dev/zero", "rb") as zeros, subprocess.Popen(command, stdin=zeros, stdout=subprocess.PIPE) as writer:
        assert writer.stdout is not None
        assert run_from(writer.stdout, replay, "replay") == expected
        writer.kill()
