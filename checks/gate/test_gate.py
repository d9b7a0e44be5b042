"""What ./check counts: each step's passed, failed and skipped, and that nothing passes on an empty run."""

from __future__ import annotations

import contextlib
import importlib.util
import os
import re
import shutil
import subprocess
import sys
from pathlib import Path

import pytest
import waiting
from commands import ran

TOP = Path(__file__).resolve().parents[2]
LONGEST = 1000
"""So many seconds a command may take. Those that give way to others take minutes on a busy machine."""

sys.path.insert(0, str(TOP / "scripts"))  # gate.py imports its neighbours
spec = importlib.util.spec_from_file_location("gate", TOP / "scripts" / "gate.py")
assert spec is not None and spec.loader is not None
gate = importlib.util.module_from_spec(spec)
sys.modules["gate"] = gate
spec.loader.exec_module(gate)


@pytest.mark.parametrize(
    ("status", "lines", "passed", "failures", "skips"),
    [
        (0, ["2 passed, 0 failed"], 2, [], []),
        (0, ["skipped: no cc", "0 passed, 0 failed, 1 skipped"], 0, [], ["no cc"]),
        (0, ["2 passed, 3 failed"], 2, ["3 failed"] * 3, []),
        (0, ["2 passed, 0 failed, 1 skipped"], 2, ["it counts 1 skipped, and names 0"], []),
    ],
)
def test_last_line(status: int, lines: list[str], passed: int, failures: list[str], skips: list[str]) -> None:
    assert gate.by_last_line(gate.Ran(status, lines)) == gate.Result(passed, failures, skips)


@pytest.mark.parametrize(
    ("status", "lines"),
    [(-9, ["2 passed, 0 failed"]), (0, ["0 passed, 0 failed"]), (0, ["2 passed, 0 failed", "done"]), (0, [])],
)
def test_run_without_counts_or_ended_badly_fails_once(status: int, lines: list[str]) -> None:
    assert len(gate.by_last_line(gate.Ran(status, lines)).failures) == 1


@pytest.mark.parametrize("text", ["", "<testsuites/>"])
def test_report_without_tests_fails_once(tmp_path: Path, text: str) -> None:
    (tmp_path / "report.xml").write_text(text)
    assert len(gate.by_report(gate.Ran(0, []), tmp_path / "report.xml").failures) == 1


# ---- The whole, in a small repository


ROWS = """\
osb_message:
osb_world: osb_message
osb_replay: osb_world
osb_wire: osb_message
osb_c: osb_wire
"""

# Stands for rt. It proves each crate of crates.txt whose sources don't say `wrong`, and writes its name to `proved`.
RT = """\
home=${0%/*}/..
case $1 in
    version) echo 'kit 1' ;;
    ci)
        failed=0
        for name in $(sed 's/:.*//' crates.txt); do
            if grep -qr wrong "crates/$name"; then
                echo "rt: $name NOT PROVED"; failed=1
            else
                echo "rt: $name proved"; echo "$name" >>"$home/proved"
                mkdir -p "crates/$name/out/rlib"
            fi
        done
        : >crates/osb_message/out/osb_message
        echo "5 passed, $failed failed"
        exit "$failed"
        ;;
esac
"""

# Stands for scripts/prebuilt.
PREBUILT = """\
echo "$*" >>compared
for file in osb-replay libosb.a libosb.so; do echo "ok: prebuilt/pdp11-unix/$file is what its sources give"; done
echo '3 passed, 0 failed, 0 skipped'
"""


class Repository:
    """A small repository with the real gate. Scripts stand for rt and for the comparison of the prebuilt files."""

    def __init__(self, top: Path) -> None:
        self.top = top
        self.report: list[str] = []
        self.output = ""
        (top / "scripts").mkdir()
        scripts = ("gate.py", "ledger.py", "proofs.py", "must_fail.py", "python.sh", "packages")
        for name in ("check", "packages.txt", *(f"scripts/{script}" for script in scripts)):
            shutil.copy2(TOP / name, top / name)
        (top / "crates.txt").write_text(ROWS)
        for row in ROWS.splitlines():
            self.write(f"crates/{row.partition(':')[0]}/src/lib.rt", "fn step() {\n    1\n}\n")
        self.script("bin/rt", RT)
        self.script("scripts/prebuilt", PREBUILT)
        files = ("osb-replay", "libosb.a", "libosb.so")
        self.write("prebuilt/pdp11-unix/MANIFEST", "".join(f"{file} 11 22 kit 1\n" for file in files))
        (top / "pytest.ini").write_text("[pytest]\naddopts = -p no:cacheprovider\nmarkers =\n    alone\n    whole\n")
        self.tests("def test_one(): pass")
        (top / "test_alone.py").write_text("import pytest\n\n@pytest.mark.alone\ndef test_clock(): pass\n")

    def script(self, name: str, text: str) -> None:
        self.write(name, f"#!/bin/sh\n{text}\n")
        (self.top / name).chmod(0o755)

    def write(self, name: str, text: str) -> None:
        path = self.top / name
        path.parent.mkdir(parents=True, exist_ok=True)
        path.write_text(text)

    def commit(self) -> None:
        """So that there is a commit's hash, by which a tenth of the ledger is chosen. It is always the same one."""
        at = {"GIT_AUTHOR_DATE": "2026-01-01T00:00:00Z", "GIT_COMMITTER_DATE": "2026-01-01T00:00:00Z"}
        who = ("-c", "user.name=test", "-c", "user.email=test@localhost")
        for line in (["init", "-q"], ["add", "crates.txt"], [*who, "commit", "-q", "-m", "All"]):
            subprocess.run(["git", *line], cwd=self.top, env={**os.environ, **at}, check=True)

    def taken(self, name: str) -> list[str]:
        """The lines of a file that a script has written, which is removed."""
        path = self.top / name
        lines = path.read_text().splitlines() if path.exists() else []
        path.unlink(missing_ok=True)
        return lines

    def tests(self, text: str) -> None:
        (self.top / "test_some.py").write_text(f"import pytest\n\n{text}\n")

    def check(self, *options: str, **given: str) -> tuple[int, str, list[str]]:
        """The status, the last line, and the lines about failures and skips before it."""
        python = f'#!/bin/sh\nexec "{sys.executable}" "$@"\n'
        self.script("bin/python3", python.removeprefix("#!/bin/sh\n"))
        environment = {**os.environ, **given, "PATH": f"{self.top}/bin:{os.environ['PATH']}"}
        ended = ran([self.top / "check", *options], environment=environment, seconds=LONGEST, merged=True)
        self.output = ended.stdout
        *self.report, last = ended.stdout.partition("== all\n")[2].splitlines()
        return ended.returncode, last, [line for line in self.report if line.startswith(("FAILED: ", "skipped: "))]


@pytest.fixture
def repository(tmp_path: Path, monkeypatch: pytest.MonkeyPatch) -> Repository:
    monkeypatch.setenv("PYTEST_XDIST_AUTO_NUM_WORKERS", "1")  # `-n auto`: there are few tests
    monkeypatch.delenv("OSB_WHOLE", raising=False)
    return Repository(tmp_path)


@pytest.mark.slow
def test_all_pass(repository: Repository) -> None:
    assert repository.check() == (0, "10 passed, 0 failed, 0 skipped", [])


ALL = ["osb_message", "osb_world", "osb_replay", "osb_wire", "osb_c"]


@pytest.mark.slow
def test_what_the_ledger_has_is_not_done_again(repository: Repository) -> None:
    """But for a tenth of it, here one crate with those below. With --anew, everything is."""
    repository.commit()
    assert repository.check() == (0, "10 passed, 0 failed, 0 skipped", [])
    assert (repository.taken("proved"), repository.taken("compared")) == (ALL, ["--compare out/programs"])
    assert repository.check() == (0, "8 passed, 0 failed, 0 skipped", [])
    assert repository.taken("proved") in (
        ["osb_message", "osb_world", "osb_replay"],
        ["osb_message", "osb_wire", "osb_c"],
    )
    assert repository.taken("compared") == ["--fits"]
    assert "ledger: 5 of 5 lines fit; this run does the other 0, and 3 that fit\n" in repository.output
    assert repository.check("--anew") == (0, "10 passed, 0 failed, 0 skipped", [])
    assert (repository.taken("proved"), repository.taken("compared")) == (ALL, ["--compare out/programs"])


@pytest.mark.slow
def test_what_stands_on_a_change_is_done_again(repository: Repository) -> None:
    repository.commit()
    repository.check()
    repository.write("crates/osb_world/src/lib.rt", "fn step() {\n    2\n}\n")
    repository.write("prebuilt/pdp11-unix/MANIFEST", "osb-replay 11 33 kit 1\n")
    repository.taken("proved"), repository.taken("compared")
    assert repository.check()[0] == 0
    assert {"osb_message", "osb_world", "osb_replay"} <= set(repository.taken("proved"))
    assert "ledger: 3 of 5 lines fit; this run does the other 2, and " in repository.output
    assert repository.taken("compared") == ["--compare out/programs"]


@pytest.mark.slow
def test_what_is_not_proved_has_no_line(repository: Repository) -> None:
    repository.commit()
    repository.write("crates/osb_world/src/lib.rt", "wrong\n")
    status, last, lines = repository.check()
    assert (status, last) == (1, "5 passed, 1 failed, 0 skipped")
    assert lines == ["FAILED: proofs: not proved: osb_world"]
    ledger = (repository.top / "ledger.txt").read_text().splitlines()
    assert [line for line in ledger if not line.startswith(("#", "prebuilt/"))] == []
    repository.write("crates/osb_world/src/lib.rt", "fn step() {\n    1\n}\n")
    assert repository.check() == (0, "10 passed, 0 failed, 0 skipped", [])


@pytest.mark.slow
def test_a_mutant_that_is_not_refused_fails(repository: Repository) -> None:
    """The script that stands for rt proves each mutant."""
    repository.write("crates/osb_c/must-fail/accepted.edit", "file: src/lib.rt\nold: 1\nnew: 2\n")
    status, _, lines = repository.check()
    assert (status, lines) == (1, ["FAILED: proofs: not refused: osb_c/accepted.edit"])
    assert "must-fail osb_c/accepted.edit: NOT REFUSED\n" in repository.output
    ledger = (repository.top / "ledger.txt").read_text()
    assert "osb_c " in ledger and "accepted" not in ledger


@pytest.mark.slow
def test_whole(repository: Repository) -> None:
    """With --tests, what is marked `whole` is left out, also of the tests that go by the clock, and the tests of Go are
    told so.
    """
    told = "import os\n\ndef test_one(): assert os.environ.get('OSB_WHOLE') =="
    with open(repository.top / "test_alone.py", "a") as file:
        file.write("\n@pytest.mark.alone\n@pytest.mark.whole\ndef test_long_clock(): assert False\n")
    repository.tests(f"@pytest.mark.whole\ndef test_format(): assert False\n\n{told} None")
    assert repository.check("--tests") == (0, "2 passed, 0 failed, 0 skipped", [])
    repository.tests(f"@pytest.mark.whole\ndef test_format(): assert False\n\n{told} '1'")
    ended = [
        "FAILED: pytest -m 'not alone': test_some::test_format",
        "skipped: test_alone::test_long_clock: it goes by the clock, and failed 3 times",
    ]
    assert repository.check() == (1, "10 passed, 1 failed, 1 skipped", ended)


KIT = """
class Crate:
    def __init__(self, folder, root, known):
        pass
    def stamp(self):
        return STAMP
"""


@pytest.mark.slow
@pytest.mark.parametrize(
    ("kit", "stamp"),
    [
        (KIT.replace("STAMP", "'a stamp'"), "a stamp"),
        ("class Crate: pass", None),
    ],
)
def test_libraries_are_taken(repository: Repository, tmp_path: Path, kit: str, stamp: str | None) -> None:
    """What `rt ci` built is where `rt lib` looks for it, with the kit's stamp, unless the kit has none."""
    (tmp_path / "kit" / "bin").mkdir(parents=True)
    (tmp_path / "kit" / "bin" / "rtlib.py").write_text(kit)
    repository.script("bin/rt", f"[ $1 != doc ] || exec echo {tmp_path}/kit/START.md\n{RT}")
    assert repository.check()[0] == 0
    written = repository.top / "crates" / "osb_replay" / "out" / "rlib" / "stamp"
    assert written.parent.is_dir()
    assert (written.read_text() if written.exists() else None) == stamp


WAITS = """
import os, pathlib, time

def left(name, other):
    pathlib.Path(name).touch()
    end = time.monotonic() + 60
    while not pathlib.Path(other).exists():
        assert time.monotonic() < end
        time.sleep(0.01)
"""


@pytest.mark.slow
def test_beside_the_clock(repository: Repository, monkeypatch: pytest.MonkeyPatch) -> None:
    """On four processors, what goes by the clock runs beside all others, and those leave the processors to it."""
    repository.script("waits.py", WAITS)
    nice = os.nice(0)  # 19 is the most
    group = Path("/proc/self/autogroup")
    repository.tests(
        "import pathlib\nfrom waits import left, os\n\ndef test_one():\n"
        f"    left('one', 'clock')\n    assert os.nice(0) == {min(nice + 10, 19)}\n"
        f"    assert {not group.exists()} or pathlib.Path('{group}').read_text().endswith(' nice 10\\n')\n"
    )
    (repository.top / "test_alone.py").write_text(
        "import pytest\nfrom waits import left, os\n\n@pytest.mark.alone\n"
        f"def test_clock(): left('clock', 'one'); assert os.nice(0) == {nice}\n"
    )
    assert counts(repository, monkeypatch, 4) == [gate.Result(1, [], [])] * 2


@pytest.mark.slow
def test_before_the_clock(repository: Repository, monkeypatch: pytest.MonkeyPatch) -> None:
    """On fewer, it runs after all others."""
    repository.tests("import pathlib, time\ndef test_one(): time.sleep(1); pathlib.Path('one').touch()")
    (repository.top / "test_alone.py").write_text(
        "import pathlib, pytest\n\n@pytest.mark.alone\ndef test_clock(): assert pathlib.Path('one').exists()\n"
    )
    assert counts(repository, monkeypatch, 3) == [gate.Result(1, [], [])] * 2


def counts(repository: Repository, monkeypatch: pytest.MonkeyPatch, processors: int) -> list[object]:
    """What both runs of pytest count on a machine with so many processors."""
    monkeypatch.setattr(gate, "TOP", repository.top)
    monkeypatch.setattr(os, "sched_getaffinity", lambda _: set(range(processors)))
    with contextlib.ExitStack() as stack:
        counted = [step() for step in gate.steps(sys.executable, stack, "--tests").values()]
    return counted


FAILS = """
import pathlib, pytest

pytestmark = [pytest.mark.{mark}, pytest.mark.xdist_group("clock")]

@pytest.mark.parametrize("times", [0, {times}], ids=["never", "a@b"])
def test_clock(times):
    tries = pathlib.Path(f"tries{{times}}")
    tries.write_text((tries.read_text() if tries.exists() else "") + "x")
    assert len(tries.read_text()) > times
"""


@pytest.mark.slow
@pytest.mark.parametrize("mark, step", [("alone", "alone"), ("slow", "'not alone'")])
def test_a_test_that_fails_once_is_tried_again(repository: Repository, mark: str, step: str) -> None:
    """It counts as passed then, and is named. No line of the failure looks like one of a test that failed."""
    (repository.top / f"test_{mark}.py").write_text(FAILS.format(mark=mark, times=1))
    status, last, _ = repository.check("--tests")
    assert (status, last) == (0, f"{3 if mark == 'alone' else 4} passed, 0 failed, 0 skipped")
    assert f"pytest -m {step}: test_{mark}::test_clock[a@b] passed when it was tried again" in repository.report
    assert [len((repository.top / name).read_text()) for name in ("tries0", "tries1")] == [1, 2]
    assert f"\n| FAILED test_{mark}.py::test_clock[a@b]@clock" in repository.output
    assert "\nFAILED" not in repository.output


@pytest.mark.slow
@pytest.mark.parametrize("options", [[], ["--tests"], ["--anew"]])
def test_clock_that_always_fails(repository: Repository, options: list[str]) -> None:
    """It decides nothing where a slow machine could, and is named there."""
    (repository.top / "test_alone.py").write_text(FAILS.format(mark="alone", times=9))
    status, _, lines = repository.check(*options)
    name = "test_alone::test_clock[a@b]"
    if options:
        assert (status, lines) == (1, [f"FAILED: pytest -m alone: {name}"])
        assert "\nFAILED test_alone.py::test_clock[a@b] " in repository.output
    else:
        assert (status, lines) == (0, [f"skipped: {name}: it goes by the clock, and failed 3 times"])
        assert "\nFAILED" not in repository.output
    assert [len((repository.top / name).read_text()) for name in ("tries0", "tries9")] == [1, 3]


@pytest.mark.slow
@pytest.mark.parametrize("options", [[], ["--tests"], ["--anew"]])
def test_another_test_that_always_fails(repository: Repository, options: list[str]) -> None:
    """Three failures are a failure."""
    (repository.top / "test_slow.py").write_text(FAILS.format(mark="slow", times=9))
    status, _, lines = repository.check(*options)
    assert (status, lines) == (1, ["FAILED: pytest -m 'not alone': test_slow::test_clock[a@b]"])
    assert "\nFAILED test_slow.py::test_clock[a@b] " in repository.output
    assert [len((repository.top / name).read_text()) for name in ("tries0", "tries9")] == [1, 3]


@pytest.mark.slow
@pytest.mark.parametrize("many, tries", [(5, 2), (6, 1)])
def test_many_failures_are_not_tried_again(repository: Repository, many: int, tries: int) -> None:
    text = FAILS.format(mark="slow", times=1).replace("[0, 1]", str([1] * many)).replace(', ids=["never", "a@b"]', "")
    text = text.replace('f"tries{times}"', 'f"tries-{request.node.name}"').replace("(times)", "(request, times)")
    (repository.top / "test_slow.py").write_text(text)
    assert repository.check("--tests")[0] == (0 if tries == 2 else 1)
    assert ("\nFAILED test_slow.py::" in repository.output) == (tries == 1)
    found = [len(path.read_text()) for path in repository.top.glob("tries-*")]
    assert found == [tries] * many


@pytest.mark.slow
def test_nothing_goes_on_after_a_failure(repository: Repository, monkeypatch: pytest.MonkeyPatch) -> None:
    """What goes by the clock ends with the gate."""
    (repository.top / "test_alone.py").write_text(
        "import os, pathlib, pytest, time\n\n@pytest.mark.alone\ndef test_clock():\n"
        "    pathlib.Path('new').write_text(str(os.getpid()))\n"
        "    os.rename('new', 'clock')\n    time.sleep(600)\n"
    )
    monkeypatch.setattr(gate, "TOP", repository.top)
    monkeypatch.setattr(os, "sched_getaffinity", lambda _: set(range(4)))
    with pytest.raises(KeyboardInterrupt):
        with contextlib.ExitStack() as stack:
            others, _ = gate.steps(sys.executable, stack, "--tests").values()
            others()
            waiting.until((repository.top / "clock").exists)
            raise KeyboardInterrupt
    number = (repository.top / "clock").read_text()
    waiting.until(lambda: not Path(f"/proc/{number}").exists())


@pytest.mark.slow
def test_units(repository: Repository) -> None:
    """The cost is a multiple of what the check of osb_message takes."""
    busy = f'exec "{sys.executable}" -c "import time\nwhile time.process_time() < .5: pass"'
    repository.script("bin/rt", f"[ $1 != check ] || {busy}\n{RT}")
    repository.check()
    found = [re.fullmatch(r"units: (.*) \((.*) processor seconds of (.*) each\)", line) for line in repository.report]
    [(units, seconds, one)] = [map(float, match.groups()) for match in found if match]
    assert 0.5 <= one < 2
    rounded = 0.5 + 0.05 * (units + one)
    assert units * one == pytest.approx(seconds, abs=rounded)


@pytest.mark.slow
@pytest.mark.parametrize(
    ("check", "why"),
    [
        ("exit 1", "`rt check` of osb_message failed"),
        (
            "echo 'rt: osb_message: begins with what a check kept in /elsewhere'",
            "`rt check` of osb_message began with what another check on this machine kept",
        ),
    ],
)
def test_units_that_cannot_be_measured(repository: Repository, check: str, why: str) -> None:
    repository.script("bin/rt", f"[ $1 != check ] || {{ {check}; exit; }}\n{RT}")
    repository.check()
    assert [line.partition(" (")[0] for line in repository.report if line.startswith("units")] == [
        f"units: not measured: {why}"
    ]


@pytest.mark.slow
def test_skips_are_named_and_do_not_fail(repository: Repository) -> None:
    repository.tests(
        """
def test_one(): pass
@pytest.mark.skip(reason="no sbatch:\\n  apt-get install slurm-client")
def test_two(): pass
"""
    )
    repository.script("scripts/prebuilt", "echo 'skipped: libosb.a: another kit'; echo '2 passed, 0 failed, 1 skipped'")
    assert repository.check() == (
        0,
        "9 passed, 0 failed, 2 skipped",
        ["skipped: libosb.a: another kit", "skipped: test_some::test_two: no sbatch: apt-get install slurm-client"],
    )


@pytest.mark.slow
def test_failures_of_pytest(repository: Repository) -> None:
    repository.tests(
        """
@pytest.fixture
def broken(): raise RuntimeError
def test_one(): pass
def test_two(): assert False
def test_three(broken): pass
"""
    )
    status, last, lines = repository.check()
    assert (status, last) == (1, "10 passed, 2 failed, 0 skipped")
    assert sorted(line.rpartition("::")[2] for line in lines) == ["test_three", "test_two"]


@pytest.mark.slow
def test_no_tests_fail(repository: Repository) -> None:
    (repository.top / "test_alone.py").unlink()
    status, last, lines = repository.check()
    assert (status, last, len(lines)) == (1, "9 passed, 1 failed, 0 skipped", 1)
    assert "pytest -m alone: it ended with status 5, with 0 passed" in lines[0]


ELSEWHERE = (
    *("LIBOSB", "LIBOSB_FOLDER", "OSB_BROKER", "OSB_CASES", "OSB_PLATFORM", "OSB_REPLAY"),
    *("OSB_TEST_POSTGRESQL", "PYTHONPATH", "PYTEST_ADDOPTS"),
    *("PGDATABASE", "PGHOST", "PGHOSTADDR", "PGOPTIONS", "PGPASSWORD", "PGPORT", "PGSERVICE", "PGUSER"),
)


@pytest.mark.slow
def test_environment_names_nothing_elsewhere(repository: Repository) -> None:
    """The steps see no variable that names another library, program or database. They see every other one."""
    seen = "env | sed -n 's/=elsewhere$//p' | sort | tr '\\n' ' '"
    repository.script("scripts/prebuilt", f'echo "skipped: $({seen})"; echo "2 passed, 0 failed"')
    given = dict.fromkeys((*ELSEWHERE, "OSB_EXAMPLES", "LANGUAGE"), "elsewhere")
    assert repository.check(**given)[2] == ["skipped: LANGUAGE OSB_EXAMPLES "]


@pytest.mark.slow
def test_tests_alone(repository: Repository) -> None:
    repository.script("bin/rt", "exit 1")
    repository.script("scripts/prebuilt", "exit 1")
    assert repository.check("--tests") == (0, "2 passed, 0 failed, 0 skipped", [])


@pytest.mark.slow
def test_missing_packages_are_named(repository: Repository) -> None:
    """Those without which some tests are skipped, before the tests begin."""
    repository.script(
        "bin/dpkg-query", "grep -v '^#' packages.txt | sed 's/#.*//' | grep -v wrk | xargs -n1 echo installed"
    )
    assert repository.check("--tests")[0] == 0
    assert repository.output.startswith(
        "Not installed: wrk. Tests that need them are skipped. To install them: make packages\n"
    )


@pytest.mark.slow
def test_without_pytest(repository: Repository) -> None:
    """Nothing runs, and the report has the command that installs all."""
    (repository.top / "scripts" / "python.sh").write_text("python_with() { false; }\n")
    ran = subprocess.run([repository.top / "check", "--tests"], capture_output=True, text=True, timeout=LONGEST)
    assert (ran.returncode, ran.stdout) == (78, "")
    assert ran.stderr.rstrip().endswith("run: make packages") and ran.stderr.count("\n") == 1


# ---- What is shown meanwhile


def shows(command: list[str], folder: Path, wanted: str, end: Path, **given: str) -> str:
    """What a command has written by the time that its output has the wanted expression. Only then it may end: a test
    waits for the file.
    """
    output = b""
    with subprocess.Popen(
        command,
        cwd=folder,
        env={**os.environ, **given},
        stdin=subprocess.DEVNULL,
        stdout=subprocess.PIPE,
        stderr=subprocess.STDOUT,
    ) as process:
        assert process.stdout is not None
        while part := os.read(process.stdout.fileno(), 1 << 16):
            output += part
            if re.search(wanted, output.decode()):
                end.touch()
    return output.decode()


WAITS_FOR_END = """
def test_some():
    pass

def test_waits():
    end = time.monotonic() + 60
    while not pathlib.Path("end").exists():
        assert time.monotonic() < end, "nothing was shown meanwhile"
        time.sleep(0.01)
"""


@pytest.mark.slow
@pytest.mark.parametrize("processors", ["1", "0"])
def test_dots_are_shown_at_once(repository: Repository, processors: str) -> None:
    """The first test that has ended is shown while the next one runs."""
    repository.tests(f"import pathlib, time\n{WAITS_FOR_END}")
    line = [str(repository.top / "check"), "--tests"]
    given = {"PYTEST_XDIST_AUTO_NUM_WORKERS": processors, "PATH": f"{repository.top}/bin:{os.environ['PATH']}"}
    text = shows(line, repository.top, r"(?m)^\.", repository.top / "end", **given)
    assert text.endswith("\n3 passed, 0 failed, 0 skipped\n")


@pytest.mark.slow
def test_programs_that_are_built_are_named(repository: Repository) -> None:
    repository.script("osb-storm", "echo osb-storm: building >&2")
    assert repository.check("--tests")[0] == 0
    assert "osb-storm: building\n" in repository.output


@pytest.mark.slow
def test_progress(tmp_path: Path) -> None:
    """A line says how many tests have ended, and which runs."""
    (tmp_path / "test_some.py").write_text(f"import pathlib, time\n{WAITS_FOR_END}")
    (tmp_path / "conftest.py").write_text(
        "import progress\ndef pytest_configure(config):\n" "    progress.register(config, 0.05)\n"
    )
    line = [sys.executable, "-m", "pytest", "-q", "-n", "1", "--rootdir", str(tmp_path), str(tmp_path)]
    wanted = r"(?m)^0:\d\d: 1 of 2 tests have ended, 1 run, the longest for \d+ s: test_some.py::test_waits$"
    text = shows(line, tmp_path, wanted, tmp_path / "end", PYTHONPATH=str(TOP / "checks"))
    assert "2 passed" in text
