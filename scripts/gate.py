#!/usr/bin/env python3
"""Proves and tests everything from nothing, and counts: the gate, which ./check starts.

    scripts/gate.py PYTHON [--anew | --tests]

PYTHON is the Python that has pytest. The steps, one after another; with --tests, only the last one, without the race
detector of Go, with fewer random walks of its tests, and without the checks of format, lint and types that `make quick`
has, too:

1. The proofs, by `rt ci`, and the mutants that the prover must refuse: what has no line in the ledger that fits, and a
   tenth of the rest (scripts/ledger.py, scripts/proofs.py). With --anew, everything.
2. `scripts/prebuilt --compare`: the prebuilt files are what these sources give. It builds them over the libraries that
   `rt ci` has just proved and built. If the ledger says that this was so, and without --anew, only
   `scripts/prebuilt --fits`: they are undamaged, and of these sources.
3. pytest, several tests at once. Beside them, few at once, those that go by the clock: all others leave the processors
   to them. If a few tests fail, each is tried again with nothing beside it, since a busy machine may be the cause. What
   fails three times has failed. If it goes by the clock, a slow machine may be the cause: it is a skip that is named,
   and with --anew or --tests it has failed, too.

Hosts differ, so the cost is also given in units: one is what `rt check` of osb_message takes from nothing, in processor
seconds. It is measured before the steps, by itself.
"""

from __future__ import annotations

import contextlib
import functools
import os
import re
import resource
import shutil
import signal
import subprocess
import sys
import tempfile
import time
import xml.etree.ElementTree
from pathlib import Path
from typing import IO, Callable, Iterator, NamedTuple

import ledger
import proofs

TOP = Path(__file__).resolve().parent.parent
COUNTS = re.compile(r"(\d+) passed, (\d+) failed(?:, (\d+) skipped)?")
SKIPPED = "skipped: "
END = re.compile(rb"^[=-]{10,}", re.MULTILINE)
"""Where pytest's progress ends, and its report begins."""
# What rt writes if a check of the same crate elsewhere on this machine has left it work to begin with.
KEPT = "begins with what a check kept"
# With these set, the tests would take another library, program or database than this checkout's.
NAMED = (
    "LIBOSB",
    "LIBOSB_FOLDER",
    "OSB_BROKER",
    "OSB_CASES",
    "OSB_PLATFORM",
    "OSB_REPLAY",
    "OSB_TEST_POSTGRESQL",
    "PYTHONPATH",
    "PYTEST_ADDOPTS",
)
BUILD = "for program in osb-broker osb-platform osb-storm; do [ ! -x $program ] || ./$program --help >/dev/null; done"
"""Builds the programs. Each reports that it is built, if it must be. A test that needs it waits for it."""
NICENESS = 10
"""That of the tests that leave the processors to those that go by the clock."""
TRIES = 3
"""So often a test is tried that fails."""
FEW = 5
"""If more tests fail than this, a busy machine isn't the cause, and none is tried again."""
# PostgreSQL's clients take what a URL leaves out from variables that begin so, such as PGHOSTADDR and PGPASSWORD.
LIBPQ = "PG"


class Result(NamedTuple):
    """What a step counted: how many passed, a line for each failure, and a name with a reason for each skip. Those in
    `late` passed when they were tried again.
    """

    passed: int
    failures: list[str]
    skips: list[str]
    late: list[str] = []


class Ran(NamedTuple):
    """How a command ended, and the lines that it wrote."""

    status: int
    lines: list[str]


@contextlib.contextmanager
def started(
    command: list[str], output: int | IO[bytes], folder: Path | None = None, gives_way: bool = False
) -> Iterator[subprocess.Popen[bytes]]:
    """Runs a command beside the block, in this folder or at the top. Whatever it started ends with the block. One that
    gives way leaves the processors to the others.
    """
    nice = ["nice", "-n", str(NICENESS)] if gives_way else []
    with subprocess.Popen(
        [*nice, *command],
        cwd=folder or TOP,
        stdin=subprocess.DEVNULL,
        stdout=output,
        stderr=subprocess.STDOUT,
        start_new_session=True,
    ) as process:
        try:
            if gives_way:
                lower(process.pid)
            yield process
        finally:
            with contextlib.suppress(ProcessLookupError):
                os.killpg(process.pid, signal.SIGKILL)


def run(command: list[str], folder: Path | None = None) -> Ran:
    """Runs a command, and shows its output as it comes. Whatever it started ends with it."""
    with started(command, subprocess.PIPE, folder) as process:
        assert process.stdout is not None
        output = bytearray()
        while part := os.read(process.stdout.fileno(), 1 << 16):
            show(part)
            output += part
        return Ran(process.wait(), lines_of(output))


def lower(session: int) -> None:
    """Lowers the priority of a session. Linux may share the processors among sessions first: then the niceness of a
    process counts only within its session (sched(7), autogroup).
    """
    with contextlib.suppress(OSError):
        Path(f"/proc/{session}/autogroup").write_text(str(NICENESS))


def show(part: bytes) -> None:
    """Writes output of a command to standard output, also a part of a line: a dot is a test that has ended."""
    sys.stdout.buffer.write(part)
    sys.stdout.flush()


def lines_of(output: bytes | bytearray) -> list[str]:
    return output.decode(errors="replace").removesuffix("\n").split("\n") if output else []


def counted(passed: int, failures: list[str], skips: list[str], status: int) -> Result:
    """The counts of a step that ended with this status. One that counted nothing, or ended badly without a failure, has
    failed once.
    """
    if not failures and (status != 0 or passed + len(skips) == 0):
        failures = [f"it ended with status {status}, with {passed} passed, no failure and {len(skips)} skipped"]
    return Result(passed, failures, skips)


def by_last_line(ran: Ran) -> Result:
    """Reads `N passed, M failed` or `N passed, M failed, K skipped` in the last line. A skip is a line that begins with
    `skipped: `; if the last line counts them too, there must be as many.
    """
    last = ran.lines[-1] if ran.lines else ""
    found = COUNTS.fullmatch(last)
    skips = [line.removeprefix(SKIPPED) for line in ran.lines if line.startswith(SKIPPED)]
    if not found:
        return Result(0, [f"it ended with status {ran.status}, and its last line has no counts: {last!r}"], skips)
    failures = [f"{found[2]} failed"] * int(found[2])
    if found[3] is not None and int(found[3]) != len(skips):
        failures.append(f"it counts {found[3]} skipped, and names {len(skips)}")
    return counted(int(found[1]), failures, skips, ran.status)


def by_report(ran: Ran, report: Path) -> Result:
    """Reads pytest's JUnit XML."""
    try:
        cases = xml.etree.ElementTree.parse(report).iter("testcase")
    except (OSError, xml.etree.ElementTree.ParseError) as error:
        return Result(0, [f"pytest ended with status {ran.status} and left no report: {error}"], [])
    passed, failures, skips = 0, [], []
    for case in cases:
        name = f"{case.get('classname')}::{case.get('name')}"
        skip = case.find("skipped")
        if case.find("failure") is not None or case.find("error") is not None:
            failures.append(name)
        elif skip is not None:
            skips.append(f"{name}: {' '.join((skip.get('message') or '').split())}")
        else:
            passed += 1
    return counted(passed, failures, skips, ran.status)


def prove(anew: bool) -> Result:
    """The proofs and the mutants."""
    found = proofs.prove(TOP, run_in, anew)
    return counted(len(found.passed), found.failures, [], 0)


def run_in(command: list[str], folder: Path) -> tuple[int, list[str]]:
    """Runs a command in this folder, and shows its output as it comes."""
    ran = run(command, folder=folder)
    return ran.status, ran.lines


def compare(anew: bool) -> Result:
    """Compares the prebuilt files with what was built, or, if the ledger says that this was done, with its lines."""
    now, before = ledger.prebuilt_now(TOP), ledger.read(TOP)
    if not anew and now and all(before.get(name) == line for name, line in now.items()):
        return check("scripts/prebuilt", "--fits")
    ran = run(["scripts/prebuilt", "--compare", "out/programs"])
    result = by_last_line(ran)
    same = {match[1] for line in ran.lines if (match := re.fullmatch("ok: (\\S+) is what its sources give", line))}
    if not result.failures:
        ledger.add(TOP, {name: line for name, line in now.items() if name in same})
    return result


def check(*command: str) -> Result:
    return by_last_line(run([*command]))


def name_of(failure: str) -> str:
    """The name of a test in a report, without the group that pytest-xdist adds to it."""
    name, _, group = failure.rpartition("@")
    return name if name and "]" not in group else failure


def few(result: Result) -> bool:
    """Whether some tests failed, and so few that each is worth another try."""
    return 0 < len(result.failures) <= FEW and all(test_of(TOP, failure) for failure in result.failures)


def test_of(top: Path, failure: str) -> str | None:
    """What pytest calls the test of this name in a report, or None if it is no test's name."""
    classes, _, name = name_of(failure).partition("::")
    words = classes.split(".")
    for count in range(len(words), 0, -1):
        file = "/".join(words[:count]) + ".py"
        if (top / file).is_file():
            return "::".join([file, *words[count:], name])
    return None


class Tests:
    """The two runs of pytest. If there are four processors, the tests that go by the clock run beside all others, which
    leave the processors to them.
    """

    def __init__(self, python: str, stack: contextlib.ExitStack, whole: bool, clock_decides: bool) -> None:
        """Whatever a run started ends with the stack. What is marked `whole` runs only if all of the gate does. A test
        that goes by the clock can fail if that decides; else it is a skip then.
        """
        self._python, self._stack = python, stack
        self._whole, self._clock_decides = whole, clock_decides
        self._folder = Path(stack.enter_context(tempfile.TemporaryDirectory()))
        self._processors = len(os.sched_getaffinity(0))
        self._by_the_clock: subprocess.Popen[bytes] | None = None

    def others(self) -> Result:
        """Runs all others. Beside them, the programs are built that most of them wait for."""
        self._stack.enter_context(started(["sh", "-c", BUILD], sys.__stderr__.fileno()))
        if self._processors >= 4:
            self._by_the_clock = self._begin_by_the_clock()
        # More tests than there are processors: many wait most of their time, and fewer with the race detector.
        many = os.environ.get("PYTEST_XDIST_AUTO_NUM_WORKERS") or str(self._processors + (1 if self._whole else 3))
        process = self._begin("others", "-n", many, "-m", self._marked("not alone"), gives_way=True)
        result = self._end("others", process, may_fail=True)
        if result.failures and self._by_the_clock:
            self._by_the_clock.wait()
        return self._tried_again(result, fails=True)

    def by_the_clock(self) -> Result:
        """Waits for those that go by the clock, or runs them."""
        process = self._by_the_clock or self._begin_by_the_clock()
        result = self._tried_again(self._end("alone", process, may_fail=True), fails=self._clock_decides)
        if self._clock_decides or not few(result):
            return result
        skips = [f"{name_of(failure)}: it goes by the clock, and failed {TRIES} times" for failure in result.failures]
        return Result(result.passed, [], [*result.skips, *skips], result.late)

    def _tried_again(self, result: Result, fails: bool) -> Result:
        """Tries the tests that failed again, one by one, with nothing beside them, if they are few. Unless those that
        fail each time fail the gate, their output is marked.
        """
        for turn in range(2, TRIES + 1):
            if not few(result):
                return result
            process = self._begin("again", "-n", "0", *[test_of(TOP, test) or test for test in result.failures])
            again = self._end("again", process, may_fail=turn < TRIES or not fails)
            late = [name_of(test) for test in result.failures if name_of(test) not in map(name_of, again.failures)]
            result = Result(result.passed + again.passed, again.failures, result.skips, [*result.late, *late])
        return result

    def _begin_by_the_clock(self) -> subprocess.Popen[bytes]:
        return self._begin("alone", "-n", "2" if self._processors >= 4 else "1", "-m", self._marked("alone"))

    def _end(self, name: str, process: subprocess.Popen[bytes], may_fail: bool) -> Result:
        """Waits for a run, and shows its output. If it may fail, and few tests do, the lines at its end are marked: it
        fails nothing.
        """
        text, shown, status = b"", 0, None
        with open(self._folder / name, "rb") as output:
            while status is None:
                with contextlib.suppress(subprocess.TimeoutExpired):
                    status = process.wait(0.2)
                text += output.read()
                end = match.start() if (match := END.search(text)) else len(text)
                show(text[shown:end])
                shown = max(shown, end)
        result = by_report(Ran(status, []), self._report(name))
        lines = text[shown:].splitlines(keepends=True)
        show(b"".join(b"| " + line if may_fail and few(result) else line for line in lines))
        return result

    def _begin(self, name: str, *options: str, gives_way: bool = False) -> subprocess.Popen[bytes]:
        output = self._stack.enter_context(open(self._folder / name, "wb"))
        report = f"--junitxml={self._report(name)}"
        command = [self._python, "-m", "pytest", "-q", "--dist", "loadgroup", report, *options]
        return self._stack.enter_context(started(command, output, gives_way=gives_way))

    def _marked(self, these: str) -> str:
        """The expression for these tests."""
        return these if self._whole else f"{these} and not whole"

    def _report(self, name: str) -> Path:
        return self._folder / f"{name}.xml"


def steps(python: str, stack: contextlib.ExitStack, *options: str) -> dict[str, Callable[[], Result]]:
    """The steps in their order, by their names. Whatever they start ends with the stack."""
    found: dict[str, Callable[[], Result]] = {}
    if "--tests" not in options:
        anew = "--anew" in options
        found["proofs"] = functools.partial(prove, anew)
        found["prebuilt"] = functools.partial(compare, anew)
    tests = Tests(python, stack, whole="--tests" not in options, clock_decides=bool(options))
    found["pytest -m 'not alone'"] = tests.others
    found["pytest -m alone"] = tests.by_the_clock
    return found


def processor_seconds() -> float:
    used = resource.getrusage(resource.RUSAGE_CHILDREN)
    return used.ru_utime + used.ru_stime


def unit() -> tuple[float, str]:
    """What `rt check` of osb_message takes from nothing, in processor seconds; or 0, and why it isn't known."""
    with tempfile.TemporaryDirectory() as folder:
        crate = Path(folder, "crates", "osb_message")
        shutil.copytree(TOP / "crates" / "osb_message", crate, ignore=shutil.ignore_patterns("out"))
        rows = (TOP / "crates.txt").read_text().splitlines(keepends=True)
        Path(folder, "crates.txt").write_text("".join(row for row in rows if row.startswith("osb_message:")))
        used = processor_seconds()
        checked = subprocess.run(
            ["rt", "check"],
            cwd=crate,
            stdin=subprocess.DEVNULL,
            stdout=subprocess.PIPE,
            stderr=subprocess.STDOUT,
            text=True,
        )
        if checked.returncode != 0:
            return 0, "`rt check` of osb_message failed"
        if KEPT in checked.stdout:
            return 0, "`rt check` of osb_message began with what another check on this machine kept"
        return processor_seconds() - used, ""


def in_units(seconds: float, one: float, why: str) -> str:
    if why:
        return f"units: not measured: {why} ({seconds:.0f} processor seconds)"
    return f"units: {seconds / one:.1f} ({seconds:.0f} processor seconds of {one:.1f} each)"


def summary(results: list[Result]) -> str:
    passed = sum(result.passed for result in results)
    failed = sum(len(result.failures) for result in results)
    return f"{passed} passed, {failed} failed, {sum(len(result.skips) for result in results)} skipped"


def main() -> int:
    signal.signal(signal.SIGTERM, lambda *_: sys.exit(128 + signal.SIGTERM))
    for name in ("MAKEFLAGS", "MFLAGS"):  # of a `make` that started this: they aren't for what the steps start
        os.environ.pop(name, None)
    python, *options = sys.argv[1:]
    with contextlib.ExitStack() as stack:
        status = count(steps(python, stack, *options), "--anew" in options)
    return status


def count(found: dict[str, Callable[[], Result]], anew: bool = False) -> int:
    """Runs the steps, and reports what they counted. Returns the status of the gate."""
    if "proofs" in found:
        for name in [name for name in os.environ if name in NAMED or name.startswith(LIBPQ)]:
            del os.environ[name]
        os.environ["OSB_WHOLE"] = "anew" if anew else "1"
    one, why = unit() if "proofs" in found else (0, "")
    all_used = processor_seconds()
    results: list[Result] = []
    report: list[str] = []
    for name, step in found.items():
        print(f"== {name}", flush=True)
        begun, used = time.monotonic(), processor_seconds()
        result = step()
        results.append(result)
        seconds = f"{time.monotonic() - begun:.0f} s, {processor_seconds() - used:.0f} processor seconds"
        report.append(f"{name}: {summary([result])} ({seconds})")
        report += [f"FAILED: {name}: {failure}" for failure in dict.fromkeys(result.failures)]
        report += [f"{name}: {test} passed when it was tried again" for test in result.late]
    if "proofs" in found:
        report.append(in_units(processor_seconds() - all_used, one, why))
    report += [f"{SKIPPED}{skip}" for result in results for skip in result.skips]
    print("== all", *report, summary(results), sep="\n", flush=True)
    return 1 if any(outcome.failures for outcome in results) else 0


if __name__ == "__main__":
    sys.exit(main())
