"""Which osb-broker, which osb-platform and which osb-storm run, when the launcher builds them, and what is reported."""

from __future__ import annotations

import shutil
import signal
from pathlib import Path
from typing import Callable

import pytest
from go.toolchain import NEEDS, needs_packages
from launcher.go_repository import GoRepository, edit_keeping_time_and_length
from waiting import until

pytestmark = pytest.mark.slow

BUILDS = "building the program from the sources in go/, which takes up to a minute"


@pytest.fixture(params=["osb-broker", "osb-platform", "osb-storm"])
def repository(request: pytest.FixtureRequest, tmp_path: Path) -> GoRepository:
    needs_packages()
    return GoRepository(tmp_path, request.param)


def serve(repository: GoRepository, **variables: str) -> tuple[int, str, str]:
    """The status, the output, and what was reported."""
    run = repository.run(repository.name, "serve", "--state", "a b", has_rt=False, **variables)
    return run.returncode, run.stdout, run.stderr


def builds(repository: GoRepository) -> str:
    """What is reported before a build."""
    return f"{repository.name}: {BUILDS}\n"


def says(main: str) -> str:
    """What the program prints if it is built from this main.go: its arguments, and the standard input."""
    return f"{main}: serve --state a b\na schedule"


def test_built_once(repository: GoRepository) -> None:
    """A line reports it. The program gets the arguments and the standard input, and its status is the launcher's."""
    assert serve(repository) == (9, says("first"), builds(repository))
    assert serve(repository) == (9, says("first"), "")
    assert len(repository.go_builds()) == 1
    assert (repository.kit / "stolen").read_text() == ""  # of the program's standard input
    assert not list(repository.program.parent.glob("*.new.*"))


def change_library(repository: GoRepository) -> None:
    (repository.prebuilt / "libosb.a").write_text("another\n")
    repository.record_prebuilt()


CHANGES: dict[str, Callable[[GoRepository], object]] = {
    "a source": lambda repository: edit_keeping_time_and_length(repository.main, "other"),
    "a file beside it": lambda repository: repository.main.with_name("catalogue.json").write_text("{ }"),
    "the name of a file": lambda repository: repository.main.with_name("catalogue.json").rename(
        repository.main.with_name("other.json")
    ),
    "the header": lambda repository: repository.write("include/osb.h", "another\n"),
    "the library": change_library,
    "the program": lambda repository: repository.program.chmod(0o644),
}


@pytest.mark.parametrize("what", CHANGES)
def test_built_again(repository: GoRepository, what: str) -> None:
    serve(repository)
    CHANGES[what](repository)
    assert serve(repository) == (9, says(repository.main.read_text()), builds(repository))
    assert serve(repository)[2] == ""
    assert len(repository.go_builds()) == 2


def test_another_program_in_its_place(repository: GoRepository) -> None:
    """It isn't run: the launcher reports it, and builds the program again."""
    serve(repository)
    repository.program.write_text("#!/bin/sh\necho foreign\n")
    reported = f"{repository.name}: {repository.program} isn't what was built here\n"
    status, out, err = serve(repository)
    assert (status, out) == (9, says("first"))
    assert err == reported * err.count(reported) + builds(repository) and reported in err
    assert serve(repository) == (9, says("first"), "")


def test_what_changes_no_source_builds_nothing(repository: GoRepository) -> None:
    """A test, and the place of the checkout. The program needs nothing else of the checkout."""
    serve(repository)
    (repository.main.parent / "main_test.go").write_text("another test")
    repository.top = repository.top.rename(repository.folder / "moved")
    assert serve(repository) == (9, says("first"), "")
    program = shutil.copy2(repository.top / "out" / "go" / repository.name, repository.folder)
    shutil.rmtree(repository.top)
    assert repository.run(str(program), "serve").stdout == "first: serve\na schedule"


@pytest.mark.parametrize("is_static", [True, False])
def test_linked_statically_if_it_can_be(repository: GoRepository, is_static: bool) -> None:
    if not is_static:
        repository.tool("gcc", "#!/bin/sh\nexit 1\n")
    serve(repository)
    (build,) = repository.go_builds()
    assert ("-static -Wl,--build-id=none -lsqlite3 -lm" in build) == is_static
    assert "-buildid= " in build and "--build-id=none" in build  # the same bytes in each checkout
    assert "-tags libsqlite3 netgo osusergo sqlite_omit_load_extension " in build


def test_another_program(repository: GoRepository) -> None:
    """Nothing is built, and nothing is looked for."""
    repository.write("own", '#!/bin/sh\necho "own: $*"\nexit 8\n')
    shutil.rmtree(repository.top / "go")
    assert serve(repository, **{repository.variable: f"{repository.top}/own"}) == (8, "own: serve --state a b\n", "")
    for nothing in (repository.top, repository.top / "crates.txt", repository.top / "nowhere"):
        rejection = f"{repository.name}: {repository.variable} names {nothing}, which isn't a program\n"
        assert serve(repository, **{repository.variable: str(nothing)}) == (70, "", rejection)
    assert repository.go_builds() == []


def test_missing_tool(repository: GoRepository) -> None:
    """A line says what to install."""
    (repository.kit / "go").unlink()
    for name in ("bash", "readlink", "uname", "find", "sort", "xargs", "sha256sum"):
        (repository.kit / name).symlink_to(str(shutil.which(name)))
    status, out, reported = serve(repository, PATH=str(repository.kit))
    assert (status, out) == (70, "")
    assert reported.startswith(
        f"{repository.name}: to build the program, go is missing: apt-get install golang-go gcc "
    )
    assert reported.count("\n") == 1
    assert set(NEEDS.values()) < set(reported.split())


def test_build_that_fails(repository: GoRepository) -> None:
    """What Go reports is shown, and the old program stays as it was."""
    serve(repository)
    before = repository.program.read_bytes()
    repository.main.write_text("fault")
    for _ in range(2):
        status, out, reported = serve(repository)
        assert (status, out) == (70, "")
        assert (
            reported
            == f"{builds(repository)}a warning\nmain.go:1: a fault\n{repository.name}: the program can't be built\n"
        )
    assert repository.program.read_bytes() == before
    repository.main.write_text("first")
    assert serve(repository) == (9, says("first"), "")


def test_running_program_is_not_written_over(repository: GoRepository) -> None:
    serve(repository)
    with open(repository.program, encoding="ascii") as running:
        repository.main.write_text("later")
        assert serve(repository)[1] == says("later")
        assert "first" in running.read()


def test_two_starts_build_once(repository: GoRepository) -> None:
    (repository.kit / "seconds").write_text("1\n")
    ended = [process.communicate(timeout=60) for process in [repository.start(), repository.start()]]
    assert [out for out, _ in ended] == ["first: \n", "first: \n"]
    assert sorted(reported for _, reported in ended) == [
        builds(repository),
        f"{repository.name}: waiting for another start, which builds\n",
    ]
    assert len(repository.go_builds()) == 1


@pytest.mark.parametrize("how", [signal.SIGTERM, signal.SIGKILL])
def test_end_of_the_launcher_ends_its_build(repository: GoRepository, how: signal.Signals) -> None:
    """The next start builds, and leaves nothing of the ended one."""
    (repository.kit / "seconds").write_text("600\n")
    with repository.start() as launcher:
        until(repository.go_builds)
        builder = int(repository.go_builds()[0].split()[0])
        launcher.send_signal(how)
        assert launcher.wait(60) == -how
        until(lambda: not Path(f"/proc/{builder}").exists())
    (repository.kit / "seconds").write_text("0\n")
    (repository.program.parent / f"{repository.name}.new.1").touch()
    assert serve(repository)[:2] == (9, says("first"))
    assert not list(repository.program.parent.glob("*.new.*"))
