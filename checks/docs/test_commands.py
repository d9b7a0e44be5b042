"""The commands of the documents, run as they stand there, but for ports and for what only root may do."""
from __future__ import annotations

import os
import re
import shutil
import subprocess
from pathlib import Path

import pytest
from commands import needs
from docs.pages import TOP, blocks, covers, packages, read
from docs.workdir import Workdir, wait_for
from go.toolchain import NEEDS, TESTS_NEED, TOOLS, needs_packages

ONE = "00000000-0000-0000-0000-000000000001"

pytestmark = pytest.mark.slow


def installed() -> set[str]:
    """The packages that the gate installs, and `make packages`."""
    return set(re.sub("#.*", "", read("packages.txt")).split())


def test_embedded_blocks_are_current(replay: Path) -> None:
    """Files and what commands print stand in the documents to the byte. If they don't, run scripts/embed.py."""
    environment = {**os.environ, "OSB_REPLAY": str(replay)}
    done = subprocess.run([TOP / "scripts" / "embed.py", "--check"], capture_output=True, text=True, env=environment)
    assert (done.returncode, done.stdout, done.stderr) == (0, "", "")


@covers("README.md", "sudo apt-get install ")
def test_packages_of_the_programs(texts: list[str]) -> None:
    """They are those that the launchers ask for, and curl; the gate installs them."""
    named = packages(texts[0])
    assert named == packages(read("scripts/go_program.sh")) | {"curl"}
    assert named - installed() == set()


@pytest.mark.usefixtures("broker", "platform")
@covers("README.md", "OSB_BROKER_PASSWORD=secret ./osb-broker serve &\n")
def test_programs(texts: list[str], workdir: Workdir, port: int) -> None:
    """An instance is created, seen at the broker, and deleted."""
    needs("curl")
    moved = texts[0].replace("serve &", f"serve --listen 127.0.0.1:{port} &").replace(":8080", f":{port}")
    apart = moved.replace("platform run &", "platform run >printed 2>log &").replace("operation\n", "operation; echo\n")
    out = workdir.run(f"{apart}ls $XDG_STATE_HOME/osb-broker/instances\nkill %2 %1; wait\n")
    assert out.splitlines() == ["my-db", '{"state":"succeeded"}']
    assert "my-db is gone" in workdir.errors().splitlines()


@covers("CONTRIBUTING.md", "PYTHONPATH=programs /usr/bin/python3 -m pdb ")
def test_program_under_the_debugger(texts: list[str], workdir: Workdir) -> None:
    """The command runs the program; here without the debugger."""
    assert "-m pdb " in texts[0]
    workdir.run(texts[0].replace("-m pdb ", ""))


@covers("README.md", "./osb-replay replay --settle ")
def test_replay_and_trace(texts: list[str], workdir: Workdir) -> None:
    """They print what stands below them."""
    assert workdir.run(texts[0]) == read("examples/unanswered.settled") + read("examples/unanswered.trace")


@covers("docs/reliability.md", "mkdir -p out && cc -shared ")
def test_out_of_memory(texts: list[str], workdir: Workdir) -> None:
    """The program ends with the status of the page."""
    needs("cc")
    workdir.run(f"{texts[0].rstrip()} && exit 1 || [ $? -eq 5 ]")
    assert workdir.errors() == "osb-replay: out of memory\n"


@covers("docs/command-line.md", "error: a word ")
def test_argument_that_is_not_utf_8(texts: list[str], workdir: Workdir) -> None:
    workdir.run("./osb-replay $'\\xff' && exit 1 || [ $? -eq 2 ]")
    assert workdir.errors() == texts[0]


_TRACE = f"./osb-replay trace --instance {ONE} < examples/crash.schedule"


@covers("docs/schedule.md", f"{_TRACE}\n", f"{_TRACE} | tools/picture ")
def test_trace_and_picture(texts: list[str], workdir: Workdir) -> None:
    trace, draw = texts
    assert workdir.run(trace) == read("examples/crash.trace")
    workdir.run(draw)
    assert (workdir.top / "crash.svg").read_text(encoding="utf-8") == read("docs/pictures/crash.svg")


# ---- C and Rust


@covers("docs/c.md", "./libosb build build\ncc ", "./libosb build build\n")
def test_first_program_in_c(texts: list[str], workdir: Workdir) -> None:
    needs("cc")
    first, build = texts
    workdir.run(build)
    made = sorted(path.name for path in (workdir.top / "build").iterdir())
    assert made == ["libosb.a", "libosb.so", "libosb.so.0", "osb.pc"]
    assert workdir.run(first) == read("examples/c/first.out")


@covers("docs/c.md", "sudo ./libosb install build ")
def test_installed_library(texts: list[str], workdir: Workdir) -> None:
    """Below DESTDIR, with the files that the page lists."""
    workdir.run(f"./libosb build build\n{texts[0]}")
    top = workdir.folder / "installed" / "usr" / "local"
    found = sorted(str(path.relative_to(top)) for path in top.rglob("*") if path.is_file())
    page = read("docs/c.md").replace("\n", " ")
    assert found == sorted(re.findall(r"`((?:include|lib)/[\w./]+)`", page.partition("with the header: ")[2][:140]))


@covers(
    "docs/c.md",
    "export PKG_CONFIG_PATH=",
    "cc -std=c99 -o first first.c $(pkg-config --cflags --libs ",
    "cc -std=c99 -o first first.c $(pkg-config --cflags osb)",
)
def test_library_in_another_folder(texts: list[str], workdir: Workdir) -> None:
    """Linked with the shared object, and with the archive."""
    needs("cc", "pkg-config")
    export, shared, archive = texts
    there = "mkdir ../there\ncp examples/c/first.c ../there\ncd ../there\n"
    out = read("examples/c/first.out")
    assert workdir.run(f"./libosb build build\n{export}{there}{shared}") == out
    assert workdir.run(f"{export}cd ../there\nrm first\n{archive}") == out


@covers("docs/c.md", "cc -std=c99 -Iinclude -o build/story ")
def test_story_in_c(texts: list[str], workdir: Workdir) -> None:
    needs("cc")
    assert workdir.run(f"./libosb build build\n{texts[0]}") == read("examples/c/story.out")


@covers("docs/c.md", "cc -std=c99 -Iinclude -o build/received ")
def test_received_in_c(texts: list[str], workdir: Workdir) -> None:
    needs("cc")
    assert workdir.run(f"./libosb build build\n{texts[0]}") == read("examples/c/received.out")


@covers("docs/c.md", "rustc ")
def test_first_program_in_rust(texts: list[str], workdir: Workdir) -> None:
    needs("rustc")
    assert workdir.run(f"./libosb build build\n{texts[0]}") == read("examples/c/first.out")


# ---- Go

_BUILD, _START = 'scripts/go build -o "$PWD/build/folders" ', "export PORT=8080 BROKER_PASSWORD=secret\n"
_EXAMPLE = "go/examples/folders"


def needs_go(*others: str) -> None:
    """Skips the test unless Go and what its packages need is installed."""
    needs("go", "pkg-config", "cc", *others)
    needs_packages()


def served_in_go(build: str, port: int) -> str:
    """The commands that build the example and start it. GOFLAGS is that of modules in this copy."""
    at, _, started = build.partition(_START)
    start = (_START + started).replace("PORT=8080", f"PORT={port}")
    return f"export GOFLAGS=\n{at}{start}{wait_for(port)}"


@covers("docs/go.md", "sudo apt-get install ")
def test_packages_of_the_example_in_go(texts: list[str]) -> None:
    """They are those of the tools and of the libraries that the example imports, and curl."""
    tools = set(" ".join(TOOLS.values()).split())
    libraries = {NEEDS[module] for module in ("github.com/mattn/go-sqlite3", "github.com/pires/go-proxyproto")}
    assert packages(texts[0]) == tools | libraries | {"curl"}


def test_packages_of_go() -> None:
    """The table has each library that the packages in go/ import, with Debian's package. The gate installs them."""
    rows = re.findall(r"^\| (golang-\S+) \| (\S+) \|", read("docs/go.md"), re.MULTILINE)
    assert {library: package for package, library in rows} == {**NEEDS, **TESTS_NEED}
    assert {package for package, _ in rows} - installed() == set()


@pytest.mark.long(15)
@covers("docs/go.md", _BUILD, 'scripts/go build -o "$PWD/build/platform" ')
def test_broker_and_platform_in_go(texts: list[str], workdir: Workdir, port: int) -> None:
    """The broker answers curl and the platform as the page says, twice, and has nothing left."""
    needs_go("curl", "openssl")
    build, platform = texts
    served = served_in_go(build, port)
    again = platform.splitlines()[-1]
    out = workdir.run(f"{served}{_EXAMPLE}/curl.sh\n{platform}{again}\nls build/state/sold\nkill %1; wait $!")
    assert out == read(f"{_EXAMPLE}/curl.out") + 2 * read("go/examples/platform/platform.out")
    assert (workdir.top / "build" / "state" / "holdings.sqlite").exists()


@pytest.mark.long(10)
@covers("docs/go.md", "mkdir -p build/own/src/example.org/folders\n")
def test_go_program_of_a_reader(texts: list[str], workdir: Workdir, port: int) -> None:
    """It is built outside of the sources, needs no shared object of the library, and answers curl."""
    needs_go("curl")
    out = workdir.run(
        f"{texts[0]}ldd build/own/broker\necho --\n"
        f"export PORT={port} BROKER_PASSWORD=secret\nbuild/own/broker &\n{wait_for(port)}"
        f"{_EXAMPLE}/curl.sh\nkill %1; wait $!"
    )
    linked, _, printed = out.partition("--\n")
    assert "libsqlite3" in linked and "libosb" not in linked
    assert printed == read(f"{_EXAMPLE}/curl.out")


@pytest.mark.long(15)
@covers("docs/go.md", "scripts/go doc ", "scripts/go test ")
def test_go_doc_and_crash_test(texts: list[str], workdir: Workdir) -> None:
    """The package's page, one name of it, and the example's tests with each crash point of the page's table."""
    needs_go()
    doc, test = texts
    out = workdir.run(f"export GOFLAGS=\n{doc}{test.replace(' test ', ' test -v ')}")
    assert "func NewService(" in out and "type Backend interface {" in out
    rows = re.findall(r"^\| ((?:`[\w-]+-(?:next|written|running|done)`,? ?)+)\|", read("docs/go.md"), re.MULTILINE)
    named = {name for row in rows for name in re.findall("`(.*?)`", row)}
    tried = set(re.findall(r"--- PASS: TestCrashes/(\S+)", out))
    untried = {name for name in named - tried if "-update-" not in name}  # osb-broker is killed at those of updates
    assert len(tried) > 10 and untried == {"wait-next", "wait-written"} and tried < named


_PROGRAM = """package main

import "pippinterm/osb"

func main() { println(osb.Version() == osb.HeaderVersion) }
"""


@covers("docs/go.md", "go mod init ", "CGO_LDFLAGS=")
def test_go_module_of_a_reader(texts: list[str], workdir: Workdir) -> None:
    """In a folder beside the repository, a program is built that needs no shared object. Go's cache is empty: it would
    not see that the library has changed.
    """
    needs_go()
    module, archive = texts
    (workdir.folder / "program").mkdir()
    (workdir.folder / "program" / "main.go").write_text(_PROGRAM, encoding="ascii")
    out = workdir.run(
        "./libosb build build\nexport PKG_CONFIG_PATH=$PWD/build GOFLAGS=-modcacherw\ncd ../program\n"
        f"{module}{archive}ldd program\necho --\n./program 2>&1",
        GOCACHE=str(workdir.folder / "cache"),
    )
    linked, _, printed = out.partition("--\n")
    assert "libosb" not in linked, "the program needs the shared object"
    assert printed == "true\n"


# ---- Python


@covers("docs/python.md", "./libosb build build\n")
def test_first_program_in_python(texts: list[str], workdir: Workdir) -> None:
    assert workdir.run(texts[0]) == read("examples/c/story.out")


# What pip needs without a network: setuptools makes wheels itself from 70.1 on. It prints where that is.
_WHEELS = """/usr/bin/python3 -c 'import venv, ensurepip, setuptools, importlib.util as u, os
it = tuple(map(int, setuptools.__version__.split(".")[:2]))
u.find_spec("wheel") or it >= (70, 1) or print(1 / 0)
print(os.path.dirname(os.path.dirname(setuptools.__file__)))' || true"""


@pytest.mark.parametrize("is_online", [True, False])
@covers("docs/python.md", "python3 -m venv ", "/usr/bin/python3 -m venv ")
def test_installed_python_package(texts: list[str], workdir: Workdir, is_online: bool) -> None:
    """The package is imported without a PYTHONPATH. Where pip would fetch setuptools, it gets Debian's."""
    online, offline = texts
    wheels = workdir.run(_WHEELS).strip()
    if not wheels:
        pytest.skip("pip can't work offline (Debian: apt-get install python3-venv python3-setuptools python3-wheel)")
    if is_online:
        (workdir.folder / "bin" / "python3").symlink_to("/usr/bin/python3")
        workdir.run(online, PYTHONPATH=wheels, PIP_NO_INDEX="1", PIP_NO_BUILD_ISOLATION="0")
    else:
        workdir.run(offline)
    out = workdir.run(
        "./libosb build build\ncd ..\nexport LIBOSB=$PWD/pippinterm/build/libosb.so\n"
        "pippinterm/build/venv/bin/python3 -c 'import osb; print(osb.version(), osb.__file__)'\n"
        "ls pippinterm/build/venv/lib/*/site-packages/osb/py.typed >&2"
    )
    version, path = out.split()
    header = dict(re.findall(r"^#define OSB_VERSION_(\w+) (\d+)$", read("include/osb.h"), re.MULTILINE))
    assert int(version) == 10000 * int(header["MAJOR"]) + 100 * int(header["MINOR"]) + int(header["PATCH"])
    assert "/build/venv/lib/" in path


# ---- Logs

_LOGS = """\
head -n 8 examples/unanswered.schedule | gzip > january.log.gz
tail -n +9 examples/unanswered.schedule > february.log
"""


def log_block(command: str) -> str:
    """The beginning of the block of docs/logs.md that has a line which begins with the command."""
    return next(block for block in blocks("docs/logs.md") if f"\n{command} " in f"\n{block}")


@covers("docs/logs.md", f"{_LOGS}./osb-replay-log replay ")
def test_log(texts: list[str], workdir: Workdir) -> None:
    """It writes the report that is shown."""
    assert workdir.run(texts[0]) == read("examples/unanswered.settled")


@covers("docs/logs.md", log_block("parallel"))
def test_log_by_parallel(texts: list[str], workdir: Workdir) -> None:
    """It writes the same report."""
    needs("parallel")
    assert workdir.run(_LOGS + texts[0]) == read("examples/unanswered.settled")


@covers("docs/logs.md", log_block("sbatch"))
def test_log_by_slurm(texts: list[str], workdir: Workdir) -> None:
    """It writes the same report, on one node."""
    if shutil.which("sbatch") is None or subprocess.run(["sinfo"], capture_output=True, check=False).returncode != 0:
        pytest.skip("Slurm isn't installed, or doesn't run (Debian: slurm-wlm)")
    _, _, report = workdir.run(_LOGS + texts[0]).partition("\n")
    assert report == read("examples/unanswered.settled")


_SPARK = """\
import subprocess
class Spark:
    def parallelize(self, items, many):
        self.items = items
        return self
    def pipe(self, command):
        for item in self.items:
            subprocess.run(command, shell=True, input=f"{item}\\n", text=True, check=True)
        return self
    def collect(self):
        return []
sc = Spark()
"""


@covers("docs/logs.md", "import glob\n")
def test_log_by_spark(texts: list[str], workdir: Workdir) -> None:
    """It writes the same report, over a stand-in for Spark."""
    (workdir.top / "spark.py").write_text(_SPARK + texts[0], encoding="utf-8")
    report = workdir.run(
        f"{_LOGS}./osb-replay-log split --parts parts january.log.gz february.log\npython3 spark.py\n"
        "./osb-replay-log merge parts"
    )
    assert report == read("examples/unanswered.settled")
