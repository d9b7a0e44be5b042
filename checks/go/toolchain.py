"""Go over one library: in modules, and in GOPATH mode with Debian's packages."""
from __future__ import annotations

import hashlib
import os
import re
from pathlib import Path

import pytest
from building import SHIPPED, building
from commands import ran
from whole import WHOLE

TOP = Path(__file__).resolve().parents[2]
SOURCES = Path("/usr/share/gocode")
"""Where Debian installs the sources of Go packages."""

TOOLS = {"go": "golang-go", "gofmt": "golang-go", "pkg-config": "pkg-config", "cc": "gcc libc6-dev"}
"""The tools that all of this needs, and the Debian packages that have them."""

SKIPPED = re.compile(r"^\s*--- SKIP: (\S+)", re.MULTILINE)
"""What `go test -v` prints of a test that was skipped."""


def run(line: list[str], folder: Path, **environment: str) -> str:
    """Runs a command that must succeed and report nothing on standard error, and returns what it printed."""
    done = ran(line, folder, {**os.environ, **environment}, seconds=1800)
    assert (done.returncode, done.stderr) == (0, ""), f"status {done.returncode}: {line}\n{done.stdout}{done.stderr}"
    return done.stdout


class Go:
    """The command `go` and what works like it, over one library."""

    def __init__(self, library: Path) -> None:
        # Go's cache doesn't notice that a header outside of the module has changed, so a flag says which one it is.
        header = hashlib.sha256((TOP / "include" / "osb.h").read_bytes()).hexdigest()
        self.environment = {
            **{name: os.environ[name] for name in ("GOCACHE", "CC") if name in os.environ},
            "GOENV": "off",
            "GOPROXY": "off",
            "GOWORK": "off",
            "GO111MODULE": "on",
            "GOFLAGS": "-mod=readonly -buildvcs=false",
            "CGO_ENABLED": "1",
            "CGO_CFLAGS": f"-g -O2 -DOSB_HEADER_DIGEST={header}",
            "CGO_LDFLAGS": "",
            "PKG_CONFIG_PATH": str(library),
            "LD_LIBRARY_PATH": str(library),
        }

    def __call__(self, folder: Path, *line: str, **environment: str) -> str:
        """Runs a command in a module, one at a time."""
        with building(race="-race" in line):
            return run(list(line), folder, **{**self.environment, **environment})


NEEDS = {
    "github.com/mattn/go-sqlite3": "golang-github-mattn-go-sqlite3-dev",
    "github.com/lib/pq": "golang-github-lib-pq-dev",
    "github.com/spf13/cobra": "golang-github-spf13-cobra-dev",
    "github.com/rs/zerolog": "golang-github-rs-zerolog-dev",
    "github.com/prometheus/client_golang": "golang-github-prometheus-client-golang-dev",
    "github.com/pires/go-proxyproto": "golang-github-pires-go-proxyproto-dev",
    "github.com/coreos/go-systemd": "golang-github-coreos-go-systemd-dev",
    "github.com/json-iterator/go": "golang-github-json-iterator-go-dev",
}
"""The packages of others, and the Debian packages that have them."""

TESTS_NEED = {
    "github.com/getkin/kin-openapi": "golang-github-getkin-kin-openapi-dev",
    "github.com/google/go-cmp": "golang-github-google-go-cmp-dev",
}
"""The same of those that no program imports, only tests."""


class Packages:
    """Commands of Go over the packages in go/, by scripts/go. One process at a time compiles. What uses the compiled
    packages runs beside each other.
    """

    def __init__(self, library: Path) -> None:
        self._library = library

    def all(self) -> list[str]:
        """The import path of each package."""
        return self._run("list", "./...", GOFLAGS=_flags("", False)).split()

    def look(self, by: str, *these: str, tags: str = "") -> str:
        """Compiles these packages, runs a command that looks at them and must succeed, and returns what it printed."""
        self._compile(*these, flags=_flags(tags, False))
        return self._run(by, *these, GOFLAGS=_flags(tags, False))

    def profile(self, *these: str, profile: Path, race: bool = False) -> None:
        """As test, and writes which statements of each package its own tests have run. For that the packages are
        compiled in another way, so only what they import is compiled before.
        """
        race = race and WHOLE
        with building(race):
            self._run("list", "-export", *these, GOFLAGS=_flags("", race))
        self._test(f"-coverprofile={profile}", *these, tags="", race=race)

    def test(
        self, *these: str, tags: str = "", options: tuple[str, ...] = (), race: bool = False, **environment: str
    ) -> None:
        """Compiles the packages, and then links and runs their tests, which must pass within an hour: on a busy machine
        with the race detector, one took 17 minutes. None may be skipped, but those of PostgreSQL if OSB_TEST_POSTGRESQL
        is empty. Nothing is linked for a debugger. `go vet` looks at all tests by itself: test_vet. `race` has them run
        with the race detector, if WHOLE.
        """
        race = race and WHOLE
        self._compile(*these, flags=_flags(tags, race), race=race)
        self._test(*options, *these, tags=tags, race=race, **environment)

    def _test(self, *line: str, tags: str, race: bool, **environment: str) -> None:
        how = ["-v", "-count=1", "-timeout", "60m", "-vet=off", "-ldflags=-w"]
        told = self._run("test", *how, *line, GOFLAGS=_flags(tags, race), **environment)
        assert environment.get("OSB_TEST_POSTGRESQL") == "" or SKIPPED.findall(told) == []

    def mutants(self, folder: Path, edits: list[Path]) -> str:
        """Runs the mutants in these files, with PostgreSQL servers of their own, and returns what is printed."""
        program = str(folder / "mutants")
        with building():
            self._run("build", "-o", program, "./internal/mutants", GOFLAGS=_flags("", False))
        return self._run(program, "check", "-workers", "2", "-folder", str(folder), *map(str, edits))

    def _compile(self, *these: str, flags: str, race: bool = False) -> None:
        with building(race):
            self._run("list", "-export", "-test", *these, GOFLAGS=flags)

    def _run(self, *line: str, **environment: str) -> str:
        given = {**os.environ, "LIBOSB_FOLDER": str(self._library), **environment}
        done = ran([TOP / "scripts" / "go", *line], environment=given, seconds=3600, merged=True)
        assert done.returncode == 0, f"status {done.returncode}: {line}\n{done.stdout}"
        return done.stdout


def _flags(tags: str, race: bool) -> str:
    """GOFLAGS for these build tags besides those of the programs. A flag has no blank, so commas separate the tags."""
    return f"-tags={','.join([*SHIPPED.split(), *tags.split()])} {'-race' if race else '-trimpath'}"


def needs_packages(tests: bool = False) -> None:
    """Skips the test unless what the programs in go/ import is installed, and what their tests import, if `tests`."""
    for name, package in {**NEEDS, **(TESTS_NEED if tests else {})}.items():
        if not (SOURCES / "src" / name).is_dir():
            pytest.skip(f"{name} isn't installed (Debian: {package})")
