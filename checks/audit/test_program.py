"""osb-audit as a program: its reports, files of all kinds, what can't be used or judged, and large journals."""

from __future__ import annotations

import gzip
import json
import os
import re
import shlex
import time
from collections.abc import Callable
from pathlib import Path

import commands
import pytest
from audit.conftest import TOP, Audit, Ran
from audit.journals import BOUND, CREATED, INSTANCE, REMOVED, Journal

from bench.journals import write

pytestmark = pytest.mark.slow

OTHER = "00000000-0000-0000-0000-000000000002"
TEXT = ("--jobs", "1")
ALL = ("--json", "--jobs", "1", "--unjudged", "100")
"""The report in JSON, whatever isn't judged."""
STRETCH = 1 << 16
"""The least that a worker reads at once."""


BEGIN = 1_700_000_000_000_000
"""The time before the first line of a story."""


def journals_in(folder: Path, story: str, instance: str = INSTANCE, time: int = BEGIN) -> list[Path]:
    folder.mkdir(exist_ok=True)
    return Journal(instance=instance, time=time).tell(story).files(folder)


def at(line: bytes, time: int) -> bytes:
    """A line as it would have been written at another time."""
    return re.sub(rb'"time":\d+', b'"time":%d' % time, line)


# ---- reports


def test_no_difference(audit: Audit) -> None:
    assert audit(Journal().tell(BOUND), options=TEXT) == Ran(0, "1 instance, 14 events, 0 differences\n", "")


def test_report(audit: Audit, tmp_path: Path) -> None:
    broker, platform = journals_in(tmp_path, CREATED.replace("B answer 1 201", "B answer 1 200"))[::-1]
    ran = audit(broker, platform, options=TEXT)
    head = "line event step state out attempt phase work tombstone resource recorded credentials given answer"
    trace = [
        "1	instance I S P sync yes at-once both	applied	none	-	-	none	-	-	absent	-	-	0	-",
        "2	create I	applied	wanted	provision	1	none	-	-	absent	-	-	0	-",
        "3	arrive I 1	applied	wanted	provision	1	none	provision	-	absent	-	-	0	-",
        "4	work I part	applied	wanted	provision	1	none	provision	-	part	-	-	0	-",
        "5	work I whole	applied	wanted	provision	1	none	provision	-	whole	-	-	0	-",
        "6	end I done	applied	wanted	provision	1	ready	-	-	whole	-	-	1	201",
    ]
    ids = {"I": INSTANCE, "S": INSTANCE[:-2] + "a0", "P": INSTANCE[:-2] + "b1"}
    wanted = [
        f"Difference: instance {INSTANCE}",
        f"  {broker}, line 10",
        "  after the event, the model has something else than the journal",
        f"  event    end {INSTANCE} done",
        "  model    answer 201",
        "  journal  answer 200",
        "  The trace up to there:",
        head.replace(" ", "\t"),
        *(
            "\t".join(" ".join(ids.get(word, word) for word in part.split(" ")) for part in line.split("\t"))
            for line in trace
        ),
        "",
        "1 instance, 7 events, 1 difference",
    ]
    assert ran == Ran(1, "".join(f"{line}\n" for line in wanted), "")


def test_launcher_and_help(replay: Path, tmp_path: Path) -> None:
    journals_in(tmp_path / "journals", REMOVED)
    ran = commands.ran([TOP / "osb-audit", "journals"], tmp_path)
    assert (ran.returncode, ran.stdout, ran.stderr) == (0, "1 instance, 14 events, 0 differences\n", "")
    ran = commands.ran([TOP / "osb-audit", "--help"])
    assert (ran.returncode, ran.stderr) == (0, "") and ran.stdout.startswith("usage: osb-audit [-h] [--json]")


# ---- files


def test_folders_and_rotated_and_compressed_files(audit: Audit, tmp_path: Path) -> None:
    """A file that a program went on with begins with the line `started`, too."""
    broker, platform = sorted(journals_in(tmp_path / "journals", REMOVED))
    lines = broker.read_text().splitlines(keepends=True)
    broker.write_text("".join(lines[:9]))
    again = at(lines[0].encode(), json.loads(lines[9])["time"] - 1).decode()
    Path(f"{broker}.1").write_text("".join([again, *lines[9:]]))
    with gzip.open(f"{platform}.gz", "wt") as file:
        file.write(platform.read_text())
    platform.unlink()
    (tmp_path / "journals" / "notes.txt").write_text("no journal\n")
    assert audit(tmp_path / "journals", options=TEXT) == Ran(0, "1 instance, 14 events, 0 differences\n", "")


@pytest.mark.parametrize("jobs", ["1", "3"])
def test_large_journals(audit: Audit, tmp_path: Path, jobs: str) -> None:
    """Journals of many stretches and buckets; one answer in them is wrong."""
    folder = tmp_path / "large"
    lines = write(folder, 60_000)
    broker = folder / "B.jsonl"
    texts = broker.read_text().splitlines(keepends=True)
    wrong = max(at for at, text in enumerate(texts[:30_000]) if '"status":409' in text)
    texts[wrong] = texts[wrong].replace('"status":409', '"status":410')
    broker.write_text("".join(texts))
    ran = audit(folder, options=("--json", "--jobs", jobs))
    assert ran.status == 1 and ran.err == ""
    assert [(difference["file"], difference["line"]) for difference in ran.report["differences"]] == [
        (str(broker), wrong + 1)
    ]
    assert ran.report["differences"][0]["instance"] == json.loads(texts[wrong])["instance"]
    assert lines == 60_000 and ran.report["instances"] == 2400 and ran.report["events"] == 29_400


def test_a_line_that_was_cut_off(audit: Audit, tmp_path: Path) -> None:
    """The end of a file may be half a line, and the process that goes on with the file begins with `started`."""
    broker, platform = sorted(journals_in(tmp_path, CREATED))
    torn = b'{"time":1800000000000000,"process":"00000000'
    whole = broker.read_bytes()
    broker.write_bytes(whole + torn)
    printed = f"{broker}:12: the line was cut off\n1 instance, 7 events, 0 differences\n"
    assert audit(broker, platform, options=TEXT) == Ran(0, printed, "")
    broker.write_bytes(whole + torn + b"\n" + at(whole.split(b"\n")[0], 2 * BEGIN) + b"\n")
    assert audit(broker, platform, options=TEXT) == Ran(0, printed, "")
    broker.write_bytes(whole + torn + b"\n" + whole.split(b"\n")[1] + b"\n")
    ran = audit(broker, platform, options=TEXT)
    assert ran == Ran(78, "", f"osb-audit: {broker}: line 13: the line before it is no line of a journal\n")


ZEROS = b"\0" * 4096


@pytest.mark.parametrize(
    "tail",
    [
        ZEROS,
        b'{"time":1800000000000000,"process":"00000000' + ZEROS,
        b"{" + ZEROS,
        b'{"time":1700000000001000,"process":"0000000000004201","side":"broker","event":"stopped"}' + ZEROS,
        ZEROS * 512,
    ],
    ids=["alone", "after a part of a line", "after a byte", "in place of a line feed", "more than a line may have"],
)
def test_zeros_after_a_power_cut(audit: Audit, tmp_path: Path, tail: bytes) -> None:
    """A file system may have written the length of a file, and not what stands there. The process that goes on with the
    file ends that line first.
    """
    broker, platform = sorted(journals_in(tmp_path, CREATED))
    whole = broker.read_bytes()
    printed = f"{broker}:12: the line was cut off\n1 instance, 7 events, 0 differences\n"
    for following in (b"", b"\n" + at(whole.split(b"\n")[0], 2 * BEGIN) + b"\n"):
        broker.write_bytes(whole + tail + following)
        assert audit(broker, platform, options=TEXT) == Ran(0, printed, "")
    broker.write_bytes(whole + tail + b"\n" + whole.split(b"\n")[1] + b"\n")
    ran = audit(broker, platform, options=TEXT)
    assert (ran.status, ran.out) == (78, "") and ran.err.endswith("it is no line of a journal\n"), ran


def test_zeros_before_a_line(audit: Audit, tmp_path: Path) -> None:
    """Zeros at another place are none that a power cut leaves."""
    broker, platform = sorted(journals_in(tmp_path, CREATED))
    lines = broker.read_bytes().splitlines(keepends=True)
    broker.write_bytes(b"".join([*lines[:5], ZEROS, *lines[5:]]))
    ran = audit(broker, platform, options=TEXT)
    assert ran == Ran(78, "", f"osb-audit: {broker}: line 6: it is no line of a journal\n")


@pytest.mark.parametrize(("event", "status"), [("started", 0), ("lost", 0), ("stopped", 2)])
def test_a_line_that_was_cut_off_between_stretches(audit: Audit, tmp_path: Path, event: str, status: int) -> None:
    """Each stretch of a file is read by itself: one ends with half a line, and the next begins with this event."""
    broker, platform = sorted(journals_in(tmp_path, CREATED))
    whole = broker.read_bytes()
    head = whole.split(b"\n")[0] + b"\n"
    torn = b'{"time":' + b"1" * len(head)
    many = (STRETCH - len(whole) - 1) // len(head)
    front = whole + b"".join(at(head, 2 * BEGIN + number) for number in range(many))
    assert len(front) < STRETCH < len(front) + len(torn)
    last = at(head, 3 * BEGIN)
    following = at(re.sub(rb'"event":"started"', b'"event":"%s"' % event.encode(), head), 3 * BEGIN - 1)
    broker.write_bytes(front + torn + b"\n" + following + last)
    ran = audit(broker, platform, options=TEXT)
    line = front.count(b"\n") + 1
    if status == 0:
        assert ran.status == 0 and f"{broker}:{line}: the line was cut off\n" in ran.out
    else:
        assert ran == Ran(78, "", f"osb-audit: {broker}: line {line}: it is no line of a journal\n")


def test_room(audit: Audit, tmp_path: Path) -> None:
    """The work directory is created in the folder of --room, and removed at the end, also if it can't be written."""
    room = tmp_path / "room"
    options = "--room", str(room)
    broker, platform = journals_in(tmp_path, CREATED)
    ran = audit(broker, platform, options=options)
    assert ran == Ran(4, "", f"osb-audit: {room}: write failed: No such file or directory\n")
    room.mkdir()
    assert audit(broker, platform, options=options).status == 0 and list(room.iterdir()) == []
    done = commands.ran(["prlimit", "--fsize=0", TOP / "osb-audit", *options, broker, platform])
    assert (done.returncode, done.stdout) == (4, ""), done
    assert re.fullmatch(f"osb-audit: {room}/osb-audit-\\w+: write failed: File too large\n", done.stderr), done
    assert list(room.iterdir()) == []


def test_a_journal_under_two_names(audit: Audit, tmp_path: Path) -> None:
    """A file counts once, and a copy of it is an error."""
    broker, platform = sorted(journals_in(tmp_path / "journals", CREATED))
    (tmp_path / "linked").symlink_to(tmp_path / "journals")
    (tmp_path / "link.jsonl").symlink_to(broker)
    printed = Ran(0, "1 instance, 7 events, 0 differences\n", "")
    names = broker, tmp_path / "link.jsonl", tmp_path / "linked" / platform.name, tmp_path / "journals"
    assert audit(*names, tmp_path / "linked", options=TEXT) == printed
    assert audit(*names[::-1], options=TEXT) == printed
    copy = tmp_path / "copy.jsonl"
    copy.write_bytes(broker.read_bytes())
    why = "is the same line `started`: one is a copy of the other. Name each journal once"
    ran = audit(platform, broker, copy, options=TEXT)
    assert ran == Ran(78, "", f"osb-audit: {broker}: line 1: {copy}, line 1 {why}\n")
    copy.unlink()
    with gzip.open(f"{platform}.gz", "wb") as file:
        file.write(platform.read_bytes())
    ran = audit(tmp_path / "journals", options=TEXT)
    assert ran == Ran(78, "", f"osb-audit: {platform}: line 1: {platform}.gz, line 1 {why}\n")


# ---- journals of version 0.3

OF_03 = Path(__file__).with_name("journals-0.3")
"""What osb-broker and osb-platform 0.3.0 wrote while an instance and a binding of it were created and deleted."""


def lines_of_03() -> list[str]:
    """Those of the broker."""
    return gzip.decompress((OF_03 / "broker.jsonl.gz").read_bytes()).decode().splitlines(keepends=True)


@pytest.mark.parametrize("visit, right, wrong", [(2, "200-in-progress", "410"), (4, "201", "200"), (6, "202", "200")])
def test_journals_of_03(audit: Audit, tmp_path: Path, visit: int, right: str, wrong: str) -> None:
    """They are judged to their end, though no line names an event, and a wrong answer in them is found."""
    assert not [line for line in lines_of_03() if "effect" in line]
    assert audit(OF_03, options=TEXT) == Ran(0, "1 instance, 38 events, 0 differences\n", "")
    lines = lines_of_03()
    answer = next(at for at, line in enumerate(lines) if f'"answered","visit":{visit},' in line)
    lines[answer] = lines[answer].replace(f'"status":{right[:3]}', f'"status":{wrong}')
    (tmp_path / "broker.jsonl").write_text("".join(lines))
    ran = audit(tmp_path / "broker.jsonl", OF_03 / "platform.jsonl.gz")
    found = [(difference["model"], difference["journal"].split("-")[0]) for difference in ran.report["differences"]]
    assert (ran.status, ran.err, found) == (1, "", [(f"answer {right}", f"answer {wrong}")])


@pytest.mark.parametrize("locks, differences", [("", 0), ("true", 0), ("false", 1)])
def test_two_workers_of_03(audit: Audit, tmp_path: Path, locks: str, differences: int) -> None:
    """Version 0.3 doesn't write whether locks can be lost, so two workers at once may have broken no rule."""
    lines = lines_of_03()
    assert not [line for line in lines if "locks_can_be_lost" in line or "committed" in line]
    if locks:
        lines[0] = lines[0].replace('"plans"', f'"locks_can_be_lost":{locks},"plans"')
    begun = next(at for at, line in enumerate(lines) if '"call":"create","stage":"begun"' in line)
    moment, process = (json.loads(lines[begun])[name] for name in ("time", "process"))
    other = [lines[0], *(at(line.encode(), moment + 1).decode() for line in lines[begun : begun + 2])]
    (tmp_path / "one.jsonl").write_text("".join(lines))
    (tmp_path / "two.jsonl").write_text("".join(other).replace(process, process[::-1]))
    ran = audit(tmp_path, OF_03 / "platform.jsonl.gz")
    assert (ran.status, ran.err, len(ran.report["differences"])) == (differences, "", differences)


# ---- the form of a line


def reversed_line(text: str) -> str:
    return json.dumps(dict(reversed(json.loads(text).items())))


FORMS: dict[str, Callable[[str], str]] = {
    "spaces": lambda it: json.dumps(json.loads(it)),
    "spaces behind the event": lambda it: it.replace(',"instance":', ', "instance" : '),
    "another order": reversed_line,
    "sorted": lambda it: json.dumps(json.loads(it), sort_keys=True, separators=(",", ":")),
    "spaces around": lambda it: f" \t{it} \r",
    "escapes": lambda it: it.replace('"instance":"0', r'"instance":"\u0030').replace('"side"', r'"\u0073ide"'),
    "further members": lambda it: it.replace('{"time"', '{"host":"\u00e9","of":{"instance":"nobody"},"time"'),
}


@pytest.mark.parametrize("name", FORMS)
def test_form_of_lines(audit: Audit, tmp_path: Path, name: str) -> None:
    """A line may be any object of JSON with the members. What is reported is the same."""
    paths = journals_in(tmp_path, BOUND.replace("B answer 1 201", "B answer 1 200"))
    wanted = audit(*paths)
    for path in paths:
        lines = path.read_text().splitlines()
        path.write_text("".join(f"{FORMS[name](line)}\n" for line in lines), newline="")
        assert path.read_text().splitlines() != lines
    assert audit(*paths) == wanted and wanted.status == 1 and wanted.report["differences"][0]["line"] == 10


def test_a_line_in_another_form_that_was_cut_off(audit: Audit, tmp_path: Path) -> None:
    broker, platform = sorted(journals_in(tmp_path, CREATED))
    lines = [json.dumps(json.loads(line), sort_keys=True) for line in broker.read_text().splitlines()]
    broker.write_text("".join(f"{line}\n" for line in lines) + lines[1][:40])
    printed = f"{broker}:12: the line was cut off\n1 instance, 7 events, 0 differences\n"
    assert audit(broker, platform, options=TEXT) == Ran(0, printed, "")


# ---- what can't be used


def bad(broker: Path, line: str) -> None:
    lines = broker.read_text().splitlines(keepends=True)
    broker.write_text("".join([*lines[:4], f"{line}\n", *lines[4:]]))


HEAD = '{"time":1700000000005500,"process":"0000000000004201","side":"broker","event":'
KEY = f'"instance":"{INSTANCE}"'
BAD = {
    "no journal": ("hello", "it is no line of a journal"),
    "a log": ('{"level":"info","event":"answered"}', "it is no line of a journal"),
    "a list": ("[1]", "it is no line of a journal"),
    "a time that is no number": (
        f'{{ "time":"1", "process":"0000000000004201", "side":"broker", "event":"arrived", {KEY}, "visit":1 }}',
        "it is no line of a journal",
    ),
    "no instance in another form": (
        '{ "side":"broker", "time":1700000000005500, "process":"0000000000004201", "event":"arrived", "visit":1 }',
        "arrived names no instance",
    ),
    "too deep": ("[" * 100_000, "it is no line of a journal"),
    "an object that is too deep": ('{"a":' * 5_000, "the line before it is no line of a journal"),
    "a newer event": (
        f'{HEAD}"updated",{KEY}}}',
        "a broker has no event 'updated' here: it is of a newer version than this osb-audit",
    ),
    "no instance": (f'{HEAD}"arrived","visit":1}}', "arrived names no instance"),
    "no JSON": (f'{HEAD}"answered",{KEY},"status":}}', "it is no object of JSON with the members of a line: "),
    "a missing member": (f'{HEAD}"answered",{KEY},"visit":1,"status":200}}', "answered of a broker has no body"),
    "no plans": (
        f'{HEAD}"started","plans":[{{"mode":"sync"}}]}}',
        "a plan in started of a broker has no service_number or no plan_number",
    ),
    "no mode": (
        f'{HEAD}"started","plans":[{{"service_number":"{INSTANCE}","plan_number":"{INSTANCE}","mode":"slow"}}]}}',
        'mode of a plan in started of a broker has to be one of sync, async, none, and is "slow"',
    ),
    "plans that are none": (f'{HEAD}"started","plans":7}}', "plans of started of a broker has to be a list, and is 7"),
    "a rule that is a text": (
        f'{HEAD}"started","first_poll":"no"}}',
        'first_poll of started of a broker has to be true or false, and is "no"',
    ),
    "a number of lost lines that is a list": (
        f'{HEAD}"lost","count":[]}}',
        "count of lost of a broker has to be a number from 0 to 2^64 - 1, and is []",
    ),
    "a request that is a list": (
        f'{HEAD}"arrived",{KEY},"visit":1,"request":[],"kind":"poll"}}',
        "request of arrived of a broker has to be a text, and is []",
    ),
    "a binding that is an object": (
        f'{HEAD}"arrived",{KEY},"binding":{{}},"visit":1,"request":"r","kind":"poll"}}',
        "binding of arrived of a broker has to be a GUID in lower case, and is {}",
    ),
    "a status that is a text": (
        f'{HEAD}"answered",{KEY},"visit":1,"status":"","body":"empty"}}',
        'status of answered of a broker has to be a number from 100 to 999, and is ""',
    ),
    "a kind that is an object": (
        f'{HEAD}"arrived",{KEY},"visit":1,"request":"r","kind":{{}}}}',
        "kind of arrived of a broker has to be one of provision, poll, deprovision, fetch, update, and is {}",
    ),
    "a state that is a number": (
        f'{HEAD.replace("broker", "platform")}"changed",{KEY},"change":1,"before":"","after":"","cause":"claim",'
        f'"state":{10**30}}}',
        f"state of changed of a platform has to be a text, and is {10**30}",
    ),
    "too large a number": (
        f'{HEAD}"arrived",{KEY},"visit":{1 << 64},"request":"r","kind":"poll"}}',
        f"visit of arrived of a broker has to be a number from 0 to 2^64 - 1, and is {1 << 64}",
    ),
    "a member twice": (
        f'{HEAD}"arrived",{KEY},"visit":1,"request":"r","kind":"poll","side":7}}',
        "it has a member twice",
    ),
    "a member that is too deep": (
        f'{HEAD}"arrived",{KEY},"visit":1,"request":"r","kind":"poll","more":{"[" * 50_000}{"]" * 50_000}}}',
        "it is no object of JSON with the members of a line: ",
    ),
}


@pytest.mark.parametrize("name", BAD)
def test_unusable_line(audit: Audit, tmp_path: Path, name: str) -> None:
    broker, platform = sorted(journals_in(tmp_path, CREATED))
    bad(broker, BAD[name][0])
    ran = audit(platform, broker, options=TEXT)
    assert (ran.status, ran.out) == (78, "")
    line = 6 if BAD[name][1].startswith("the line before it") else 5
    assert ran.err.startswith(f"osb-audit: {broker}: line {line}: {BAD[name][1]}"), ran.err


def test_unusable_files(audit: Audit, tmp_path: Path) -> None:
    ran = audit(tmp_path / "missing", options=TEXT)
    assert ran == Ran(78, "", f"osb-audit: {tmp_path}/missing: read failed: No such file or directory\n")
    (tmp_path / "empty").mkdir()
    (tmp_path / "empty" / "more").mkdir()
    why = "no file in it ends with .jsonl or .jsonl.gz: name the folder of --journal"
    assert audit(tmp_path / "empty", options=TEXT) == Ran(78, "", f"osb-audit: {tmp_path}/empty: {why}\n")
    ran = audit("/dev/null", options=TEXT)
    assert ran == Ran(78, "", "osb-audit: /dev/null: read failed: it isn't a file\n")


def packed(folder: Path, byte: bytes, size: int = 128 << 20) -> Path:
    """A gzip file of so many equal bytes."""
    path = folder / "packed.jsonl.gz"
    with gzip.open(path, "wb") as file:
        for _ in range(size >> 20):
            file.write(byte * (1 << 20))
    return path


@pytest.mark.parametrize("byte", [b"\0", b"x", b"{"], ids=["zeros", "a line that never ends", "an object"])
def test_a_gzip_file_that_holds_far_more_than_its_size(audit: Audit, tmp_path: Path, byte: bytes) -> None:
    """It isn't read to its end."""
    path = packed(tmp_path, byte)
    assert path.stat().st_size < 1 << 20
    ran = audit(path, options=TEXT)
    why = "read failed: it holds more than 100 times its own size, as no log does. If it is one, decompress it first"
    assert ran == Ran(78, "", f"osb-audit: {path}: {why}\n")


@pytest.mark.parametrize("pack", [False, True])
def test_a_line_that_is_too_long(audit: Audit, tmp_path: Path, pack: bool) -> None:
    """It can't be one that was cut off, however it begins."""
    broker, platform = sorted(journals_in(tmp_path, CREATED))
    text = broker.read_bytes() + b'{"time":' + b"1" * (3 << 20)
    path = broker.with_suffix(".jsonl.gz") if pack else broker
    path.write_bytes(gzip.compress(text, 1) if pack else text)
    ran = audit(path, platform, options=TEXT)
    assert ran == Ran(78, "", f"osb-audit: {path}: line 12: it is longer than the 1,048,576 bytes of a line\n")


def test_the_folder_of_a_storm(audit: Audit, tmp_path: Path) -> None:
    """`osb-storm both --journal FOLDER` writes the journals of each side to a folder in it."""
    broker, platform = sorted(journals_in(tmp_path, CREATED))
    folder = tmp_path / "of a storm"
    for name in ("broker", "notes", "platform"):
        (folder / name).mkdir(parents=True)
    broker.rename(folder / "broker" / "one.jsonl.1")
    with gzip.open(folder / "platform" / "two.jsonl.gz", "wb") as file:
        file.write(platform.read_bytes())
    (folder / "notes" / "notes.txt").touch()
    why = "no file in it ends with .jsonl or .jsonl.gz. Name its folders: osb-audit"
    names = f"'{folder}/broker' '{folder}/platform'"
    ran = audit(folder, options=TEXT)
    assert ran == Ran(78, "", f"osb-audit: {folder}: {why} {names}\n")
    words = shlex.split(ran.err.partition("Name its folders: osb-audit ")[2])
    assert audit(*words, options=TEXT) == Ran(0, "1 instance, 7 events, 0 differences\n", "")


@pytest.mark.parametrize("options", [["--jobs", "0"], ["--jobs"], ["--fast"], [], ["--unjudged", "100.5", "journals"]])
def test_rejected_arguments(options: list[str]) -> None:
    ran = commands.ran([TOP / "osb-audit", *options])
    assert (ran.returncode, ran.stdout) == (2, "") and "\nosb-audit: error: " in ran.stderr


# ---- what can't be judged


MISSING = "There is no journal of a {} among these: what the other side did can't be judged without it"
NOTHING = "Nothing could be judged."
USUAL = "More than 10 percent is an error, unless --unjudged PERCENT allows more."


def test_one_side_only(audit: Audit, tmp_path: Path) -> None:
    broker, platform = sorted(journals_in(tmp_path, CREATED))
    ran = audit(platform, options=TEXT)
    why = "no journal of a broker was given"
    assert ran.status == 78 and ran.err == ""
    assert f"  1 instance, nothing of 1: {why}. The first is {INSTANCE}, from {platform}, line 2 on.\n" in ran.out
    end = f"{MISSING.format('broker')}\n{NOTHING}\n1 instance, 0 events, 0 differences\n"
    assert ran.out.endswith(end), ran
    ran = audit(broker, options=TEXT)
    assert ran.status == 78 and "a request has changed it that no journal of a platform has" in ran.out
    assert f"{MISSING.format('platform')}\n{NOTHING}\n" in ran.out


def test_remarks_in_json(audit: Audit, tmp_path: Path) -> None:
    """The report in JSON says as well why nothing, or too little, was judged."""
    broker, platform = sorted(journals_in(tmp_path, CREATED))
    assert audit(broker, platform).report["remarks"] == []
    for one, other in ((broker, "platform"), (platform, "broker")):
        ran = audit(one)
        assert (ran.status, ran.report["remarks"]) == (78, [MISSING.format(other), NOTHING])
    story = f"{CREATED}; B arrive 2 x deprovision; B change 2 ready+deprovision"
    ran = audit(*journals_in(tmp_path, story), options=("--json", "--unjudged", "9"))
    printed = "Not judged to their end: 100 percent of the instances."
    assert (ran.status, ran.report["remarks"]) == (3, [f"{printed} --unjudged allows 9 percent."])
    ran = audit(*journals_in(tmp_path, story))
    assert (ran.status, ran.report["remarks"]) == (1, [f"{printed} {USUAL}"])


def test_lost_lines(audit: Audit, tmp_path: Path) -> None:
    """An instance is judged up to the time in which its lines may be missing, and one of another time to its end."""
    one, other = Journal().tell(REMOVED), Journal(instance=OTHER, time=1_700_000_009_000_000).tell(CREATED)
    one.lines["B"] += other.lines["B"][1:]
    one.lines["P"] += other.lines["P"][1:]
    broker, platform = sorted(one.files(tmp_path))
    lines = broker.read_text().splitlines(keepends=True)
    lost = json.loads(lines[11]) | {"event": "lost", "count": 3}
    broker.write_text("".join([*lines[:12], json.dumps(lost, separators=(",", ":")) + "\n", *lines[15:]]))
    ran = audit(broker, platform, options=ALL)
    assert (ran.status, ran.err) == (0, "") and ran.report["lost"] == 3
    assert [
        (reason["instances"], reason["whole"], reason["first"]["instance"]) for reason in ran.report["unjudged"]
    ] == [(1, 0, INSTANCE)]
    assert "lines were lost" in ran.report["unjudged"][0]["why"]
    assert (ran.report["instances"], ran.report["differences"]) == (2, [])


@pytest.mark.parametrize(("allowed", "status"), [("100", 0), ("50", 0), ("49.9", 3), ("0", 3)])
def test_too_many_unjudged(audit: Audit, tmp_path: Path, allowed: str, status: int) -> None:
    """One of two instances isn't judged to its end."""
    whole = journals_in(tmp_path / "one", CREATED, OTHER)
    more = f"{CREATED}; B arrive 2 x deprovision; B change 2 ready+deprovision"
    rest = journals_in(tmp_path / "other", more, time=BEGIN + 1_000_000_000)
    ran = audit(*whole, *rest, options=("--unjudged", allowed))
    printed = f"Not judged to their end: 50 percent of the instances. --unjudged allows {allowed} percent.\n"
    assert (ran.status, printed in ran.out, ran.err) == (status, status == 3, ""), ran
    assert ran.out.endswith("2 instances, 14 events, 0 differences\n")


@pytest.mark.parametrize(("whole", "status"), [(9, 0), (8, 1)])
def test_more_than_a_tenth_unjudged(audit: Audit, tmp_path: Path, whole: int, status: int) -> None:
    """One instance of so many besides isn't judged to its end. Without --unjudged, that is an error from a tenth on."""
    more = "; B arrive 2 x deprovision; B change 2 ready+deprovision"
    journal = Journal().tell(CREATED + more)
    for number in range(2, whole + 2):
        of_another = Journal(instance=f"{INSTANCE[:-2]}{number:02}", time=BEGIN + number * 1_000_000_000).tell(CREATED)
        for who, lines in of_another.lines.items():
            journal.lines[who] += lines[1:]
    paths = journal.files(tmp_path)
    ran = audit(*paths, options=TEXT)
    printed = f"Not judged to their end: {100 / (whole + 1):.3g} percent of the instances. {USUAL}\n"
    assert (ran.status, printed in ran.out, ran.err) == (status, status == 1, ""), ran
    assert audit(*paths, options=("--unjudged", "100")).status == 0


MOST = 99_000
"""The events of an instance that are judged."""


def test_an_instance_of_many_events(audit: Audit) -> None:
    """The first ones are judged. So an answer while work is pending isn't found behind them."""
    journal = Journal().tell("P claim wanted/1/provision; P send r1 provision 1; B arrive 1 r1 provision")
    journal.tell("B change 1 pending-provision")
    look = {"instance": INSTANCE, "call": "look", "stage": "ended", "result": "done"}
    for at in range(MOST - 2):  # behind `instance`, `create` and `arrive`
        journal.write("B", "work", {**look, "found": ("part", "absent")[at % 2]})
    ran = audit(journal.tell("B answer 1 201"), options=ALL)
    assert (ran.status, ran.report["events"], ran.report["differences"], ran.err) == (0, MOST, [], "")
    (reason,) = ran.report["unjudged"]
    assert (reason["why"], reason["whole"], reason["first"]["line"]) == ("it has more than 99,000 events", 0, MOST + 1)


def test_lines_of_programs_that_go_on(audit: Audit, tmp_path: Path) -> None:
    """The files are read one after the other. What a program writes meanwhile isn't judged, since lines of the other
    side may be missing. Journals that nobody writes any more are judged to their end, whatever their times are.
    """
    now = int(time.time()) * 1_000_000
    journal = Journal(time=now - 60_000_000).tell(CREATED)
    journal.time = now + 3_600_000_000
    paths = journal.tell("P claim cleaning/2/deprovision; P send r2 deprovision 2").files(tmp_path)
    ran = audit(*paths)
    assert (ran.status, ran.report["events"], ran.report["differences"]) == (0, 7, [])
    (reason,) = ran.report["unjudged"]
    assert reason["why"] == "it went on after the audit had begun" and reason["first"]["line"] == 6
    for path in paths:
        os.utime(path, (now / 1e6 - 60, now / 1e6 - 60))
    ran = audit(*paths)
    assert (ran.status, ran.report["events"], ran.report["unjudged"]) == (0, 9, [])


def test_other_settings(audit: Audit, tmp_path: Path) -> None:
    """A broker that was restarted with another rule of the first Poll, or without a line `started`."""
    story = CREATED + "B2 arrive 1 r1 provision; B2 answer 1 200"
    paths = journals_in(tmp_path, story)
    second = next(path for path in paths if path.name == "broker-B2.jsonl")
    assert audit(*paths).status == 0
    text = second.read_text()
    second.write_text(text.replace('"first_poll":false', '"first_poll":true'))
    ran = audit(*paths)
    assert (ran.status, "another rule of the first Poll" in ran.report["unjudged"][0]["why"]) == (78, True)
    second.write_text(text.partition("\n")[2])
    ran = audit(*paths)
    assert (ran.status, "no line `started`" in ran.report["unjudged"][0]["why"]) == (78, True)
