"""The arguments of osb-replay-log: schedulers, files of TLS, sizes; and that an error does nothing to a terminal."""
from __future__ import annotations

import os
import shutil
import subprocess
import sys
from pathlib import Path

import pytest
from osb_replay_log import commands, schedulers, words
from osb_replay_log.faults import shown
from osb_replay_log.schedulers import Scheduler, Tls


def rejected(capsys: pytest.CaptureFixture[str], *arguments: str) -> str:
    """What is printed about the arguments, which are rejected."""
    with pytest.raises(SystemExit) as ended:
        words.read(["replay", *arguments, "log"])
    assert ended.value.code == 2
    return capsys.readouterr().err.partition("error: ")[2]


def named(*arguments: str) -> Scheduler | None:
    """The scheduler of the arguments, which are accepted."""
    return schedulers.named(words.read(["replay", *arguments, "log"]))


# ---- without TLS

HERE = ["127.0.0.1:8786", "127.3.2.1:8786", "localhost:8786", "[::1]:8786"]
ELSEWHERE = ["10.0.0.1:8786", "0.0.0.0:8786", "[fd00::1]:8786", "localhost.example.org:8786", "127.0.0.1.example:1"]


@pytest.mark.parametrize("where", HERE)
def test_a_scheduler_on_this_machine(where: str) -> None:
    assert named("--scheduler", f"tcp://{where}") == named("--scheduler", where) == Scheduler(f"tcp://{where}")


@pytest.mark.parametrize("scheme", ["", "tcp://"])
@pytest.mark.parametrize("where", ELSEWHERE)
def test_a_scheduler_elsewhere(capsys: pytest.CaptureFixture[str], scheme: str, where: str) -> None:
    """It is rejected with both ways out."""
    told = rejected(capsys, "--scheduler", scheme + where)
    assert told.startswith(f"argument --scheduler: tcp://{where} is at another machine and has no TLS: ")
    for out in ("tls://", "--tls-ca", "--tls-cert", "--tls-key", "--insecure"):
        assert out in told
    assert named("--scheduler", scheme + where, "--insecure") == Scheduler(f"tcp://{where}")


@pytest.mark.parametrize(
    "address", ["", "tcp://", "tcp://10.0.0.1", "ucx://127.0.0.1:1", "inproc://127.0.0.1:1", "[::1", "127.0.0.1:99999"]
)
def test_what_is_no_address(capsys: pytest.CaptureFixture[str], address: str) -> None:
    assert rejected(capsys, "--scheduler", address, "--insecure").startswith("argument --scheduler: ")


@pytest.mark.parametrize("engine", [[], ["--engine", "processes"]])
def test_insecure_without_dask(capsys: pytest.CaptureFixture[str], engine: list[str]) -> None:
    """The option alone chooses nothing."""
    assert rejected(capsys, "--insecure", *engine).startswith("argument --insecure: it is for --engine dask")
    assert words.read(["replay", "--insecure", "--engine", "dask", "log"]).insecure


# ---- TLS

OPTIONS = ("--tls-ca", "--tls-cert", "--tls-key")


@pytest.fixture(scope="module")
def files(tmp_path_factory: pytest.TempPathFactory) -> Path:
    """A folder with two certificates that have signed themselves, their keys, and one of the keys with a passphrase."""
    if shutil.which("openssl") is None:
        pytest.skip("openssl isn't installed (Debian: openssl)")
    folder = tmp_path_factory.mktemp("files")
    curve = ["-newkey", "ec", "-pkeyopt", "ec_paramgen_curve:P-256", "-nodes"]
    for name in ("one", "two"):
        its = ["-subj", f"/CN={name}", "-keyout", f"{name}.key", "-out", f"{name}.cert"]
        subprocess.run(["openssl", "req", "-x509", *curve, *its], cwd=folder, check=True, capture_output=True)
    hidden = ["pkcs8", "-topk8", "-in", "one.key", "-out", "hidden.key", "-passout", "pass:a passphrase"]
    subprocess.run(["openssl", *hidden], cwd=folder, check=True, capture_output=True)
    (folder / "text").write_text("text\n", encoding="ascii")
    return folder


def options(*paths: Path) -> list[str]:
    return [str(word) for pair in zip(OPTIONS, paths) for word in pair]


def test_a_scheduler_with_tls(files: Path, monkeypatch: pytest.MonkeyPatch) -> None:
    """The paths are absolute, since the program leaves the current folder."""
    paths = [files / "two.cert", files / "one.cert", files / "one.key"]
    expected = Scheduler("tls://10.0.0.1:8786", Tls(*map(str, paths)))
    assert named("--scheduler", "tls://10.0.0.1:8786", *options(*paths)) == expected
    monkeypatch.chdir(files)
    assert named("--scheduler", "tls://10.0.0.1:8786", *options(*(Path(path.name) for path in paths))) == expected


@pytest.mark.parametrize(
    ("ca", "cert", "key", "message"),
    [
        ("none", "one.cert", "one.key", "argument --tls-ca: {files}/none can't be read: No such file or directory\n"),
        ("one.cert", "none", "one.key", "argument --tls-cert: {files}/none can't be read: No such file or directory\n"),
        ("one.cert", "one.cert", ".", "argument --tls-key: {files} can't be read: Is a directory\n"),
        ("text", "one.cert", "one.key", "argument --tls-ca: {files}/text has no certificate in PEM: "),
        ("one.cert", "text", "one.key", "argument --tls-cert, --tls-key: {files}/text and {files}/one.key aren't "),
        ("one.cert", "two.cert", "one.key", "argument --tls-cert, --tls-key: {files}/two.cert and "),
        ("one.cert", "one.cert", "hidden.key", "argument --tls-cert, --tls-key: {files}/one.cert and "),
    ],
)
def test_files_of_tls(
    capsys: pytest.CaptureFixture[str], files: Path, ca: str, cert: str, key: str, message: str
) -> None:
    """Each is rejected before anything is sent, and no passphrase is asked for."""
    told = rejected(capsys, "--scheduler", "tls://10.0.0.1:8786", *options(files / ca, files / cert, files / key))
    assert told.startswith(message.format(files=files))


@pytest.mark.skipif(shutil.which("setsid") is None, reason="setsid isn't installed (Debian: util-linux)")
def test_no_passphrase_is_asked_for(files: Path) -> None:
    """On a terminal, the program would wait for it."""
    master, terminal = os.openpty()
    its = options(files / "one.cert", files / "one.cert", files / "hidden.key")
    arguments = ["replay", "--scheduler", "tls://10.0.0.1:8786", *its, "log"]
    command = ["setsid", "--ctty", "--wait", sys.executable, "-m", "osb_replay_log", *arguments]
    try:
        ran = subprocess.run(command, stdin=terminal, capture_output=True, text=True, check=False, timeout=60)
    finally:
        os.close(master)
        os.close(terminal)
    assert (ran.returncode, ran.stdout) == (2, "") and "without a passphrase" in ran.stderr


@pytest.mark.parametrize("left_out", [*OPTIONS, "all"])
def test_some_files_are_missing(capsys: pytest.CaptureFixture[str], files: Path, left_out: str) -> None:
    its = options(files / "one.cert", files / "one.cert", files / "one.key")
    at = OPTIONS.index(left_out) if left_out in OPTIONS else 0
    some = its[: 2 * at] + its[2 * at + 2 :] if left_out in OPTIONS else []
    told = rejected(capsys, "--scheduler", "tls://10.0.0.1:8786", *some)
    assert told == "argument --scheduler: tls:// needs all of --tls-ca, --tls-cert and --tls-key\n"


def test_files_that_are_not_for_the_scheduler(capsys: pytest.CaptureFixture[str], files: Path) -> None:
    its = options(files / "one.cert", files / "one.cert", files / "one.key")
    assert "they are for a --scheduler at tls://" in rejected(capsys, *its)
    assert "tcp://127.0.0.1:1 has no TLS" in rejected(capsys, "--scheduler", "tcp://127.0.0.1:1", *its)
    assert "it isn't for" in rejected(capsys, "--scheduler", "tls://10.0.0.1:1", "--insecure", *its)


# ---- sizes


def test_sizes() -> None:
    sizes = {"1": 1, "500M": 500 * 1024**2, "20g": 20 * 1024**3, "3k": 3072, "2T": 2 * 1024**4}
    for text, size in sizes.items():
        assert words.read(["split", "--parts", "p", "--room-limit", text, "log"]).room_limit == size
    assert words.read(["replay", "log"]).room_limit is None


@pytest.mark.parametrize("size", ["0", "0M", "", "M", "1.5G", "-1", "10X", "1MB", "1 M", "٣", "9" * 5000])
def test_what_is_no_size(capsys: pytest.CaptureFixture[str], size: str) -> None:
    assert "is no size such as 500M or 20G" in rejected(capsys, f"--room-limit={size}")


# ---- an error does nothing to a terminal

CONTROLS = [*range(0x20), *range(0x7F, 0xA0)]
DIRECTIONS = [0x061C, 0x200E, 0x200F, *range(0x202A, 0x202F), *range(0x2066, 0x206A)]
LINES = [0x2028, 0x2029]
BYTES = [0xDC80, 0xDCFF]  # as Python has the bytes of a file's name that aren't UTF-8


@pytest.mark.parametrize("code", [*CONTROLS, *DIRECTIONS, *LINES, *BYTES], ids=hex)
def test_what_is_escaped(code: int) -> None:
    """The escape is what Python's source would have for it."""
    told = shown(f"a{chr(code)}b")
    assert told.isprintable() and told[0] + told[-1] == "ab" and chr(code) not in told
    assert told[1] == "\\" and told.encode("ascii").decode("unicode_escape") == f"a{chr(code)}b"


@pytest.mark.parametrize("text", ["/srv/a log", "café", "記録", "a\\b", "'\"$`", "\U0001f600"])
def test_what_is_not_escaped(text: str) -> None:
    assert shown(text) == text


def test_errors_are_on_one_line(capsys: pytest.CaptureFixture[str]) -> None:
    assert commands.run(["replay", "/none\x1b[31m\nosb-replay-log: done"]) == 3
    told = r"/none\x1b[31m\nosb-replay-log: done: read failed: No such file or directory"
    assert capsys.readouterr() == ("", f"osb-replay-log: {told}\n")
    assert rejected(capsys, "--a\x1b[31m\u202e\nb") == "unrecognized arguments: --a\\x1b[31m\\u202e\\nb\n"
