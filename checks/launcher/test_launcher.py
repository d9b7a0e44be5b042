"""Which osb-replay and which library run: the prebuilt ones, or those built from source, and what is reported."""

from __future__ import annotations

import os
import signal
import subprocess
from pathlib import Path
from typing import Callable

import pytest
from commands import begun
from launcher.small_repository import CASES, Repository
from waiting import until

pytestmark = pytest.mark.slow

PREBUILT = "prebuilt: replay --settle\na schedule"
BUILT = "built: replay --settle\na schedule"


@pytest.fixture
def repository(tmp_path: Path) -> Repository:
    return Repository(tmp_path)


def replay(repository: Repository, *options: str, has_rt: bool = True) -> tuple[int, str, str]:
    """The status, the output, and what was reported."""
    run = repository.run("./osb-replay", *options, "replay", "--settle", has_rt=has_rt)
    return run.returncode, run.stdout, run.stderr


def test_prebuilt_program_runs_without_rt(repository: Repository) -> None:
    assert replay(repository, has_rt=False) == (9, PREBUILT, "")


def move_checkout(repository: Repository) -> None:
    """With a comment changed, and a file added that is no source."""
    rows = (repository.top / "crates.txt").read_text()
    (repository.top / "crates.txt").write_text(rows.replace("A comment", "Another one") + "osb_other: uuid\n")
    (repository.world / "notes").write_text("fn other\n")
    repository.top = repository.top.rename(repository.folder / "moved")


def test_what_changes_no_source_builds_nothing(repository: Repository) -> None:
    move_checkout(repository)
    assert replay(repository) == (9, PREBUILT, "")


def edit_keeping_time_and_length(repository: Repository) -> None:
    source = repository.world / "src" / "lib.rt"
    before = source.stat()
    source.write_text("fn stop\n")
    os.utime(source, ns=(before.st_atime_ns, before.st_mtime_ns))


def rename_source(repository: Repository) -> None:
    (repository.world / "specs" / "Steps.antt").rename(repository.world / "specs" / "Other.antt")


def change_row(repository: Repository) -> None:
    rows = (repository.top / "crates.txt").read_text()
    (repository.top / "crates.txt").write_text(rows.replace("osb_world: uuid", "osb_world: uuid clap"))


@pytest.mark.parametrize("change", [edit_keeping_time_and_length, rename_source, change_row])
def test_changed_source_is_built_once(repository: Repository, change: Callable[[Repository], None]) -> None:
    change(repository)
    assert "To build from source, put the command rt" in replay(repository, has_rt=False)[2]
    status, out, reported = replay(repository)
    assert (status, out, repository.builds()) == (9, BUILT, ["osb_world", "osb_replay"])
    assert "was built from other sources" in reported and "crate 2 of 2, osb_replay, 7 functions proved" in reported
    assert (repository.kit / "stolen").read_text() == ""  # of the program's standard input
    assert replay(repository, has_rt=False) == (9, BUILT, "")


def test_from_source(repository: Repository) -> None:
    """It builds although the prebuilt program fits, and again under another kit or if the build is damaged."""
    status, out, reported = replay(repository, "--from-source")
    assert (status, out) == (9, BUILT) and "--from-source was given" in reported
    assert replay(repository, "--from-source") == (9, BUILT, "")
    assert replay(repository) == (9, PREBUILT, "")
    (repository.kit / "version").write_text("kit 2\n")
    assert "proving and building" in replay(repository, "--from-source")[2]
    (repository.built / "osb-replay").write_text("exit 8\n")
    status, out, reported = replay(repository, "--from-source")
    assert (status, out) == (9, BUILT) and "osb-replay is damaged" in reported


@pytest.mark.parametrize(
    ("file", "report"),
    [
        ("osb-replay", "osb-replay is damaged: its SHA-256 isn't the one in MANIFEST"),
        ("MANIFEST", "MANIFEST can't be read, or has no line for osb-replay"),
    ],
)
def test_unusable_prebuilt_file_is_reported_and_not_used(repository: Repository, file: str, report: str) -> None:
    (repository.prebuilt / file).write_text("# Nothing.\n")
    status, out, reported = replay(repository, has_rt=False)
    assert (status, out) == (70, "") and report in reported
    for _ in range(2):  # reported each time
        status, out, reported = replay(repository)
        assert (status, out) == (9, BUILT) and report in reported


def test_machine_without_prebuilt_files(repository: Repository) -> None:
    repository.prebuilt.rename(repository.prebuilt.with_name("pdp11-unix"))
    status, out, reported = replay(repository)
    assert (status, out) == (9, BUILT) and f"there is no prebuilt/{repository.prebuilt.name}" in reported


def test_what_is_not_proved_does_not_run(repository: Repository) -> None:
    (repository.world / "src" / "lib.rt").write_text("fn not proved\n")
    status, out, reported = replay(repository)
    assert (status, out) == (70, "")
    assert "osb_world isn't proved and built; the end of crates/osb_replay/out/build.log:" in reported
    assert "error: a goal is open" in reported
    assert not (repository.built / "MANIFEST").exists()


def test_source_that_cannot_be_read(repository: Repository) -> None:
    (repository.world / "src" / "lost.rt").symlink_to("nowhere")
    status, out, reported = replay(repository)
    assert (status, out) == (70, "") and "can't read the sources of the crates" in reported


def start(repository: Repository) -> subprocess.Popen[str]:
    return begun([repository.top / "osb-replay", "--from-source"], repository.environment())


def test_two_starts_build_once(repository: Repository) -> None:
    (repository.kit / "seconds").write_text("1\n")
    ended = [process.communicate(timeout=60) for process in [start(repository), start(repository)]]
    assert [out for out, _ in ended] == ["built: \n", "built: \n"]
    assert sum("waiting for another start" in reported for _, reported in ended) == 1
    assert repository.builds() == ["osb_world", "osb_replay"]


@pytest.mark.parametrize("how", [signal.SIGTERM, signal.SIGKILL])
def test_end_of_the_launcher_ends_its_build(repository: Repository, how: signal.Signals) -> None:
    (repository.kit / "seconds").write_text("600\n")
    with start(repository) as launcher:
        until(repository.builds)
        group = int((repository.kit / "builds").read_text().split()[0])
        launcher.send_signal(how)
        assert launcher.wait(60) == -how
        until(lambda: not is_alive(group))


def is_alive(group: int) -> bool:
    try:
        os.killpg(group, 0)
    except ProcessLookupError:
        return False
    return True


# ---- The library, and the path of each


def test_where(repository: Repository) -> None:
    run = repository.run("scripts/where", "replay", has_rt=False)
    assert (run.stdout, run.stderr) == (f"{repository.prebuilt}/osb-replay\n", "")
    run = repository.run("scripts/where", "library", has_rt=False)
    assert (run.stdout, run.stderr) == (f"{repository.top}/out/library\n", "")
    assert (repository.top / "out" / "library" / "libosb.so").read_text() == "prebuilt\n"
    run = repository.run("scripts/where", "cases", has_rt=False)
    assert (run.stdout, run.stderr) == (f"{repository.prebuilt}\n", "")
    run = repository.run("scripts/where", "--from-source", "replay")
    assert run.stdout == f"{repository.built}/osb-replay\n" and "proving and building" in run.stderr
    run = repository.run("scripts/where", "--from-source", "cases")
    assert run.stdout == f"{repository.built}\n" and all((repository.built / case).exists() for case in CASES)
    assert repository.run("scripts/where", "program").returncode == 2


def test_library_is_copied(repository: Repository) -> None:
    assert repository.run("./libosb", "build", "there", has_rt=False).stderr == ""
    there = repository.folder / "there"
    texts = {path.name: path.read_text() for path in there.iterdir()}
    pc = texts.pop("osb.pc")
    assert texts == {"libosb.a": "prebuilt\n", "libosb.so": "prebuilt\n", "libosb.so.0": "prebuilt\n"}
    assert f"libdir={there}\nincludedir={repository.top}/include\n" in pc


def test_library_is_built_if_its_sources_differ(repository: Repository) -> None:
    repository.run("./libosb", "build", "there")
    (repository.top / "crates" / "osb_c_wire" / "src" / "lib.rt").write_text("fn stop\n")
    run = repository.run("./libosb", "build", "there")
    assert (run.returncode, run.stdout) == (0, "") and "was built from other sources" in run.stderr
    libraries = """
        osb_c osb_c_binding osb_c_binding_wire osb_c_driver osb_c_instance osb_c_platform_driver osb_c_update
        osb_c_update_driver osb_c_update_wire osb_c_wire
    """.split()
    assert sorted(repository.builds()) == [*libraries, "osb_world"]
    assert (repository.folder / "there" / "libosb.so.0").read_text() == "built\n"
    assert replay(repository) == (9, PREBUILT, "")  # which doesn't stand on osb_c_wire


def test_library_is_installed(repository: Repository) -> None:
    repository.run("./libosb", "build", "there")
    to = repository.folder / "usr"
    assert repository.run("./libosb", "install", "there", str(to)).returncode == 0
    found = sorted(str(path.relative_to(to)) for path in to.rglob("*") if not path.is_dir())
    wanted = ["include/osb.h", "lib/libosb.a", "lib/libosb.so", "lib/libosb.so.0", "lib/pkgconfig/osb.pc"]
    assert found == wanted and (to / "lib" / "libosb.so").readlink() == Path("libosb.so.0")


# ---- The prebuilt files, written and compared


def compare(
    repository: Repository, *program: str, how: str = "--compare", has_rt: bool = True
) -> tuple[int, str, list[str]]:
    """The status, the last line, and the lines that aren't ok."""
    run = repository.run("scripts/prebuilt", how, *program, has_rt=has_rt)
    *lines, last = run.stdout.splitlines()
    return run.returncode, last, [line for line in lines if not line.startswith("ok: ")]


def test_prebuilt_files_that_differ_from_the_build_fail(repository: Repository) -> None:
    status, last, lines = compare(repository)
    assert (status, last) == (1, "0 passed, 6 failed, 0 skipped")
    assert all("differ" in line for line in lines)
    given = str(repository.prebuilt)  # what `rt ci` has built is the same, and the library isn't a program
    assert compare(repository, given)[1] == "4 passed, 2 failed, 0 skipped"
    assert compare(repository, has_rt=False)[:2] == (1, "0 passed, 6 failed, 0 skipped")


def test_written_files_pass(repository: Repository) -> None:
    (repository.top / "out").mkdir()
    (repository.top / "out" / "old").touch()
    assert repository.run("scripts/prebuilt").returncode == 0
    assert not (repository.top / "out" / "old").exists()
    assert compare(repository) == (0, "6 passed, 0 failed, 0 skipped", [])
    assert replay(repository, has_rt=False) == (9, BUILT, "")
    before = (repository.prebuilt / "MANIFEST").read_bytes()
    assert repository.run("scripts/prebuilt").returncode == 0
    assert (repository.prebuilt / "MANIFEST").read_bytes() == before


def test_stale_prebuilt_files_fail(repository: Repository) -> None:
    rename_source(repository)
    status, last, lines = compare(repository)
    assert (status, last) == (1, "0 passed, 6 failed, 0 skipped")
    assert all("it was built from other sources. Run make prebuilt" in line for line in lines)


def fits(repository: Repository) -> tuple[int, str, list[str]]:
    """The same of a look that builds nothing."""
    return compare(repository, how="--fits")


def test_files_that_fit_are_not_built(repository: Repository) -> None:
    assert fits(repository) == (0, "6 passed, 0 failed, 0 skipped", [])
    (repository.prebuilt / "service_cases").write_text("damaged")
    status, last, lines = fits(repository)
    assert (status, last) == (1, "5 passed, 1 failed, 0 skipped")
    assert "service_cases: its SHA-256 isn't the one in MANIFEST" in lines[0]
    rename_source(repository)
    assert fits(repository)[:2] == (1, "0 passed, 6 failed, 0 skipped")
    assert repository.builds() == []


def test_another_kit_skips_the_comparison_by_name(repository: Repository) -> None:
    (repository.kit / "version").write_text("kit 2\n")
    status, last, lines = compare(repository)
    assert (status, last) == (0, "0 passed, 0 failed, 6 skipped")
    assert [line.partition("prebuilt/")[0] for line in lines] == ["skipped: "] * 6
    assert all(
        "built by another kit, kit 1, and this one is kit 2. Run make prebuilt under that kit" in line for line in lines
    )
