"""The library that C links: its functions, the layout of its structs, its examples, a call of each export, and memory.

The programs are compiled by gcc and by clang, and run as they are, under the compilers' sanitizers and under valgrind.
Without a C compiler nothing can be tested (Debian: apt-get install gcc libc6-dev).
"""
from __future__ import annotations

import ctypes
import os
import shutil
import subprocess
from pathlib import Path

import pytest
from commands import needs, ran
from from_c import cases
from osb import _header

from api.generate import CALLS, STRUCTS, pascal
from api.table import STATUS

TOP = Path(__file__).resolve().parents[2]
HERE = Path(__file__).resolve().parent
SOURCES = {
    "first": TOP / "examples/c/first.c",
    "story": TOP / "examples/c/story.c",
    "received": TOP / "examples/c/received.c",
    "suite": HERE / "suite.c",
}
EXPORTS = sorted(call.name for call in CALLS)
# The suite takes the place of these functions of the C library.
WRAPPED = [f"-Wl,--wrap={name}" for name in ("malloc", "realloc", "free")]
SANITIZERS = ["-g", "-fsanitize=address,undefined", "-fno-sanitize-recover=all"]
# What the archive may call of the C library.
OF_THE_C_LIBRARY = {"free", "malloc", "memcpy", "memmove", "memset", "realloc"}

pytestmark = pytest.mark.slow
every_program = pytest.mark.parametrize("name", SOURCES)


def run(command: str | Path, *words: str | Path, environment: dict[str, str] | None = None) -> str:
    """Runs a command at the top of the repository. It must succeed and write nothing to standard error."""
    needs(str(command))
    done = ran([command, *words], TOP, environment)
    assert (done.returncode, done.stderr) == (0, ""), f"{command} {words} printed {done.stdout}"
    return done.stdout


def with_cases(folder: Path) -> list[str]:
    """How the suite is compiled, once its cases are written into the folder."""
    cases.write(folder / "cases.h")
    return [f"-I{folder}"]


def compile_c(compiler: str, to: Path, library: Path, *arguments: str | Path) -> Path:
    """A program in C over the archive, without any warning."""
    options = ["-std=c99", "-Wall", "-Wextra", "-pedantic", "-Werror", "-Iinclude"]
    options += [*WRAPPED, *with_cases(to.parent)] if SOURCES["suite"] in arguments else []
    run(compiler, *options, *arguments, "-o", to, library / "libosb.a")
    return to


def check_output(name: str, printed: str) -> None:
    """Whether an example printed its text, or the suite that it called each export, and which of them took memory."""
    if name != "suite":
        assert printed == SOURCES[name].with_suffix(".out").read_text(encoding="utf-8")
        return
    calls = [(line.split()[0], int(line.split()[1])) for line in printed.splitlines()]
    assert sorted({call for call, _ in calls}) == EXPORTS
    take_memory = {call.name for call in CALLS if "MEMORY" in dict(call.statuses(STATUS))}
    assert {call for call, allocations in calls if allocations > 0} == take_memory


def defined(*nm: str | Path) -> list[str]:
    return sorted(line.split()[-1] for line in run("nm", "--defined-only", *nm).splitlines() if " " in line)


# ---- The library and the header.


def test_the_library_has_these_functions_and_no_other(library: Path) -> None:
    assert EXPORTS == defined("-g", library / "libosb.a")
    assert EXPORTS == defined("-D", library / "libosb.so")


def test_ctypes_lays_out_the_structs_as_the_compiler_does(tmp_path: Path) -> None:
    """The members themselves are those of the crates (checks/table), whose structs have the layout of C."""
    lines = ['#include "osb.h"']
    for name, struct in STRUCTS.items():
        twin = getattr(_header, f"C{pascal(struct.name)}")
        lines.append(f'_Static_assert(sizeof({name}) == {ctypes.sizeof(twin)}, "{name}");')
        for variable in struct.variables:
            offset = f"offsetof({name}, {variable.name}) == {getattr(twin, variable.name).offset}"
            lines.append(f'_Static_assert({offset}, "{name}.{variable.name}");')
    (tmp_path / "layout.c").write_text("\n".join(lines), encoding="utf-8")
    run("gcc", "-std=c11", "-Wall", "-Wextra", "-Werror", "-Iinclude", "-fsyntax-only", tmp_path / "layout.c")


def test_the_library_calls_nothing_but_memory(library: Path) -> None:
    called = {line.split()[-1] for line in run("nm", "-u", library / "libosb.a").splitlines() if " U " in line}
    assert called == OF_THE_C_LIBRARY


# ---- The examples and the suite.


@pytest.mark.parametrize("options", [[], SANITIZERS], ids=["plain", "sanitizers"])
@pytest.mark.parametrize("compiler", ["gcc", "clang"])
@every_program
def test_a_program(name: str, compiler: str, options: list[str], library: Path, tmp_path: Path) -> None:
    program = compile_c(compiler, tmp_path / name, library, SOURCES[name], *options)
    check_output(name, run(program))


@every_program
def test_a_program_under_valgrind(name: str, library: Path, tmp_path: Path) -> None:
    leaks = ["--leak-check=full", "--show-leak-kinds=all", "--errors-for-leak-kinds=all"]
    program = compile_c("gcc", tmp_path / name, library, SOURCES[name])
    check_output(name, run("valgrind", "-q", "--error-exitcode=99", *leaks, program))


def test_128_kib_of_stack_are_enough(library: Path, tmp_path: Path) -> None:
    program = compile_c("gcc", tmp_path / "suite", library, SOURCES["suite"])
    check_output("suite", run("prlimit", f"--stack={128 << 10}", program, environment={}))


def test_the_suite_finds_each_export_that_does_nothing(library: Path, tmp_path: Path) -> None:
    """Each export in turn is replaced by a function that returns 0 and writes nothing."""
    suite, nothing = tmp_path / "suite.o", tmp_path / "nothing.o"
    run("gcc", "-std=c99", "-Iinclude", *with_cases(tmp_path), "-c", SOURCES["suite"], "-o", suite)
    bodies = "".join(f"unsigned __wrap_{name}(void) {{ return 0; }}\n" for name in EXPORTS)
    (tmp_path / "nothing.c").write_text(bodies, encoding="utf-8")
    run("gcc", "-c", tmp_path / "nothing.c", "-o", nothing)
    run("gcc", "-o", tmp_path / "whole", suite, *WRAPPED, library / "libosb.a")
    check_output("suite", run(tmp_path / "whole"))
    missed = []
    for name in EXPORTS:
        wraps = [*WRAPPED, f"-Wl,--wrap={name}"]
        run("gcc", "-o", tmp_path / "planted", suite, nothing, *wraps, library / "libosb.a")
        if subprocess.run([tmp_path / "planted"], stdout=subprocess.DEVNULL, timeout=60).returncode != 1:
            missed.append(name)
    assert len(EXPORTS) > 40 and missed == []


def test_the_header_in_cplusplus(library: Path, tmp_path: Path) -> None:
    source = tmp_path / "plus.cc"
    source.write_text('#include "osb.h"\nint main() { return osb_record{}.state + (osb_version() != OSB_VERSION); }\n')
    options = ["-std=c++11", "-Wall", "-Wextra", "-pedantic", "-Werror", "-Iinclude"]
    run("g++", *options, "-o", tmp_path / "plus", source, library / "libosb.a")
    run(tmp_path / "plus")


# ---- Installed under a prefix, and linked as pkg-config says.


def install(library: Path, root: Path, prefix: str) -> subprocess.CompletedProcess[str]:
    """`./libosb install` with next to nothing in its environment."""
    return ran(["./libosb", "install", library, prefix], TOP, {"PATH": "/usr/bin:/bin", "DESTDIR": str(root)})


def test_a_program_links_as_pkg_config_says(library: Path, tmp_path: Path) -> None:
    ended = install(library, tmp_path, "/usr")
    assert (ended.returncode, ended.stderr) == (0, "")
    files = {str(path.relative_to(tmp_path)) for path in (tmp_path / "usr").rglob("*") if not path.is_dir()}
    libraries = {f"usr/lib/{name}" for name in ("libosb.a", "libosb.so", "libosb.so.0", "pkgconfig/osb.pc")}
    assert files == libraries | {"usr/include/osb.h"}
    environment = {
        **os.environ,
        "PKG_CONFIG_SYSROOT_DIR": str(tmp_path),
        "PKG_CONFIG_ALLOW_SYSTEM_CFLAGS": "1",
        "PKG_CONFIG_ALLOW_SYSTEM_LIBS": "1",
        "PKG_CONFIG_PATH": str(tmp_path / "usr/lib/pkgconfig"),
    }
    flags = run("pkg-config", "--cflags", "--libs", "osb", environment=environment).split()
    run("gcc", "-o", tmp_path / "story", SOURCES["story"], *flags)
    printed = run(tmp_path / "story", environment={**os.environ, "LD_LIBRARY_PATH": str(tmp_path / "usr/lib")})
    check_output("story", printed)


def test_install_rejects_the_folder_that_it_would_copy_into(library: Path, tmp_path: Path) -> None:
    own = tmp_path / "usr/lib"
    own.mkdir(parents=True)
    for name in ("libosb.a", "libosb.so.0"):
        shutil.copy(library / name, own)
    ended = install(own, tmp_path, "/usr")
    assert ended.returncode == 70 and "into itself: build into another folder" in ended.stderr
    assert {path.name for path in own.rglob("*")} == {"libosb.a", "libosb.so.0"}
    assert (own / "libosb.a").read_bytes() == (library / "libosb.a").read_bytes()
