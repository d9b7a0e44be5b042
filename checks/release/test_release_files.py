"""The files of a release: the same each time, and each is what its name says."""

from __future__ import annotations

import gzip
import hashlib
import json
import os
import re
import shutil
import subprocess
import tarfile
import zipfile
from datetime import datetime
from pathlib import Path
from typing import Any

import pytest
from commands import needs, printed
from docs.pages import TOP, block, read

from release import pages
from release.making import make

pytestmark = pytest.mark.slow


def run(*line: str | Path, **variables: str) -> str:
    """Runs a command that must succeed, and returns what it printed."""
    return printed(line, environment={**os.environ, **variables})


def sums(folder: Path) -> dict[str, str]:
    return {path.name: hashlib.sha256(path.read_bytes()).hexdigest() for path in sorted(folder.iterdir())}


def unpacked(archive: Path, into: Path) -> Path:
    """A folder with the files of a tar."""
    with tarfile.open(archive) as opened:
        opened.extractall(into)
    return into


def unpacked_deb(package: Path, into: Path) -> Path:
    """A folder with the files of a package, and its control files in DEBIAN."""
    run("dpkg-deb", "-R", package, into)
    return into


def manifest() -> dict[str, str]:
    """The SHA-256 of each prebuilt file."""
    rows = (line.split() for line in read("prebuilt/x86_64-linux/MANIFEST").splitlines() if not line.startswith("#"))
    return {row[0]: row[1] for row in rows}


def digest(file: Path) -> str:
    return hashlib.sha256(file.read_bytes()).hexdigest()


@pytest.mark.long(45)
def test_same_bytes_twice(dist: Path, version: str, tmp_path: Path, monkeypatch: pytest.MonkeyPatch) -> None:
    """Also from a checkout in another folder, beside files of an earlier release, and under another umask, time zone
    and language.
    """
    created = datetime.fromisoformat(bill(dist, version)["creationInfo"]["created"].replace("Z", "+00:00"))
    monkeypatch.setenv("SOURCE_DATE_EPOCH", str(int(created.timestamp())))
    monkeypatch.setenv("TZ", "Asia/Kathmandu")
    monkeypatch.setenv("LC_ALL", "C")
    shutil.copytree(dist, tmp_path / "again")
    (tmp_path / "again" / f"osb-{version}.oci.tar").write_text("of an earlier release")
    unbuilt = shutil.ignore_patterns(".git", "out", "build", "dist", "__pycache__")
    shutil.copytree(TOP, tmp_path / "checkout", symlinks=True, ignore=unbuilt)
    before = os.umask(0o077)
    try:
        make(tmp_path / "again", tmp_path / "checkout")
    finally:
        os.umask(before)
    assert sums(tmp_path / "again") == sums(dist)


def test_names_and_checksums(dist: Path, version: str) -> None:
    names = {
        f"osb_{version}_amd64.deb",
        f"osb-dev_{version}_amd64.deb",
        f"osb-{version}-py3-none-manylinux_2_17_x86_64.whl",
        f"osb-{version}-linux-amd64.tar.gz",
        f"osb-{version}.oci.tar",
        f"osb-{version}.spdx.json",
    }
    assert {path.name for path in dist.iterdir()} == names | {"SHA256SUMS"}
    checked = subprocess.run(["sha256sum", "-c", "SHA256SUMS"], cwd=dist, capture_output=True, text=True)
    assert checked.returncode == 0 and {line.split(":")[0] for line in checked.stdout.splitlines()} == names


@pytest.mark.long(15)
def test_packages_satisfy_lintian(dist: Path) -> None:
    """Without an error or a warning, and each override in the package is one that lintian needs."""
    needs("lintian")
    line = ["lintian", "--allow-root", "--fail-on", "error,warning", "--display-info"]
    line += sorted(map(str, dist.glob("*.deb")))
    ran = subprocess.run(line, capture_output=True, text=True, timeout=300)
    others = [reported for reported in ran.stdout.splitlines() if not reported.startswith("I: ")]
    assert (ran.returncode, others) == (0, []), ran.stdout + ran.stderr
    assert "unused-override" not in ran.stdout and "mismatched-override" not in ran.stdout


def test_files_of_the_package(dist: Path, version: str, tmp_path: Path) -> None:
    """The programs have a manual page for each command. The library and osb-replay are the prebuilt files."""
    top = unpacked_deb(dist / f"osb_{version}_amd64.deb", tmp_path / "osb")
    library = top / "usr/lib/x86_64-linux-gnu/libosb.so.0"
    assert os.readlink(library) == f"libosb.so.{version}"
    kept = {"libosb.so": digest(library), "osb-replay": digest(top / "usr/bin/osb-replay")}
    assert kept == {name: manifest()[name] for name in kept}
    for program in ("osb-broker", "osb-platform", "osb-storm"):
        assert run(top / "usr/bin" / program, "--version") == f"{program} version {version} (libosb {version})\n"
        commands = re.findall(r"^  ([a-z]+) +[A-Z]", run(top / "usr/bin" / program, "--help"), re.MULTILINE)
        pages = {path.name for path in (top / "usr/share/man/man1").glob(f"{program}*.gz")}
        listed = [command for command in commands if command not in ("help", "completion")]
        assert len(listed) > 3 and {f"{program}-{command}.1.gz" for command in listed} <= pages
        guides = re.findall(r"docs/[a-z-]+\.md", run(top / "usr/bin" / program, "--help"))
        assert guides and all((top / "usr/share/doc/osb" / guide).is_file() for guide in guides)
    for file in (top / "etc/osb", top / "lib/systemd/system/osb-broker.service"):
        assert file.exists()


def test_manual_pages_have_no_place_of_this_machine(dist: Path, version: str, tmp_path: Path) -> None:
    top = unpacked_deb(dist / f"osb_{version}_amd64.deb", tmp_path / "osb")
    pages = {path.name: gzip.decompress(path.read_bytes()).decode() for path in (top / "usr/share/man/man1").iterdir()}
    assert len(pages) > 15
    assert [name for name, text in pages.items() if str(TOP) in text or str(Path.home()) in text] == []
    assert "~/.local/state/osb-broker" in pages["osb-broker-serve.1.gz"]
    assert "--worker" in pages["osb-platform-run.1.gz"] and "the machine's name" in pages["osb-platform-run.1.gz"]


def options(text: str) -> set[str]:
    return set(re.findall(r"--[a-z][a-z-]+", text))


@pytest.mark.parametrize(
    ("name", "commands"),
    [("osb-replay", "replay trace network"), ("osb-replay-log", "replay split merge"), ("osb-audit", "")],
)
def test_manual_page_of_a_help(name: str, commands: str, replay: Path) -> None:
    """The page has each option and each exit status of the help, and no other. groff has nothing to warn of."""
    program = replay if name == "osb-replay" else TOP / name
    lines: list[list[str]] = [[], *([command] for command in commands.split())]
    texts = [run(program, *line, "--help", OSB_REPLAY=str(replay)) for line in lines]
    made = pages.page(name, pages.help_of(name, replay), "0.0.0", "January 1970")
    page = made.replace(r"\-", "-").replace("\\", "")
    assert options("".join(texts)) == options(page)
    statuses = re.findall(r"^  (\d+)  ", texts[0].partition("Exit status:")[2], re.MULTILINE)
    assert len(statuses) > 5
    assert re.findall(r"^\.B (\d+)$", page, re.MULTILINE) == [status.strip() for status in statuses]
    if shutil.which("groff"):  # lintian needs it
        ran = subprocess.run(["groff", "-man", "-Tutf8", "-ww"], input=made, capture_output=True, text=True)
        assert (ran.returncode, ran.stderr) == (0, "")


def test_completion(dist: Path, version: str, tmp_path: Path) -> None:
    """bash completes an option of osb-broker, over what the package installs."""
    top = unpacked_deb(dist / f"osb_{version}_amd64.deb", tmp_path / "osb")
    script = top / "usr/share/bash-completion/completions/osb-broker"
    words = "COMP_WORDS=(osb-broker serve --lis) COMP_CWORD=2 COMP_LINE='osb-broker serve --lis' COMP_POINT=22"
    stand_in = "_get_comp_words_by_ref() { cur=--lis prev=serve words=(osb-broker serve --lis) cword=2; }"
    complete = f"{stand_in}; . {script}; {words}; COMP_TYPE=9; __start_osb-broker; echo ${{COMPREPLY[*]}}"
    found = run("bash", "-c", complete, PATH=f"{top}/usr/bin:{os.environ['PATH']}")
    assert found.split()[0] == "--listen"
    for program in ("osb-platform", "osb-storm"):
        assert (top / f"usr/share/zsh/vendor-completions/_{program}").read_text().startswith(f"#compdef {program}\n")


def test_c_program_over_the_development_package(dist: Path, version: str, tmp_path: Path) -> None:
    """pkg-config finds the library, and the example is linked with both of its kinds."""
    needs("cc", "pkg-config")
    top = tmp_path / "root"
    for name in (f"osb_{version}_amd64.deb", f"osb-dev_{version}_amd64.deb"):
        run("dpkg-deb", "-x", dist / name, top)
    libraries = top / "usr/lib/x86_64-linux-gnu"
    found = {"PKG_CONFIG_LIBDIR": str(libraries / "pkgconfig"), "PKG_CONFIG_SYSROOT_DIR": str(top)}
    assert run("pkg-config", "--modversion", "osb", **found) == f"{version}\n"
    flags = f"-I{top}/usr/include", f"-L{libraries}"
    source = TOP / "examples/c/first.c"
    assert source.exists()
    for linked in ("-losb", "-l:libosb.a"):
        run("cc", *flags, "-o", tmp_path / "first", source, linked)
        assert run(tmp_path / "first", LD_LIBRARY_PATH=str(libraries)) == read("examples/c/first.out")


def test_wheel(dist: Path, version: str, tmp_path: Path) -> None:
    """Without an index, it is installed into an empty environment, and the package calls its own library."""
    if subprocess.run(["/usr/bin/python3", "-c", "import ensurepip"], capture_output=True).returncode != 0:
        pytest.skip("ensurepip isn't installed (Debian: python3-venv)")
    (wheel,) = dist.glob("*.whl")
    run("/usr/bin/python3", "-m", "venv", tmp_path / "venv")
    python = tmp_path / "venv/bin/python3"
    run(python, "-m", "pip", "install", "--no-index", "--disable-pip-version-check", wheel)
    script = (
        "import osb, osb._lib\n"
        "ids = [osb.Id.of(f'00000000-0000-0000-0000-00000000000{number}') for number in (1, 2, 3)]\n"
        "record, request = osb.Record.create(*ids, False)\n"
        "print(record.state, request.kind, osb.version(), osb._lib.lib._name)\n"
    )
    named = ("LIBOSB", "PYTHONPATH", "LD_LIBRARY_PATH")
    environment = {name: value for name, value in os.environ.items() if name not in named}
    ran = subprocess.run([python, "-c", script], capture_output=True, text=True, env=environment, cwd=tmp_path)
    (place,) = (tmp_path / "venv").glob("lib/python3*/site-packages/osb/libosb.so.0")
    number = sum(int(number) * factor for number, factor in zip(version.split("."), (10000, 100, 1)))
    assert ran.stdout == f"wanted provision {number} {place}\n", ran.stderr


def test_library_of_the_wheel_fits_its_tag(dist: Path, tmp_path: Path) -> None:
    """It is the prebuilt one. It needs libc alone, and no symbol of a glibc after 2.17."""
    (wheel,) = dist.glob("*manylinux_2_17_x86_64.whl")
    with zipfile.ZipFile(wheel) as opened:
        library = Path(opened.extract("osb/libosb.so.0", tmp_path))
    assert digest(library) == manifest()["libosb.so"]
    versions = re.findall(r"@GLIBC_(\d+)\.(\d+)", run("readelf", "-W", "--dyn-syms", library))
    assert len(versions) > 5 and max((int(one), int(two)) for one, two in versions) <= (2, 17)
    assert re.findall(r"\(NEEDED\).*\[(.*)\]", run("readelf", "-dW", library)) == ["libc.so.6"]


JOURNALS = "examples/journals"


def own(folder: Path, *line: str, status: int = 0) -> str:
    """What a program prints in a folder, if its environment names nothing of this checkout."""
    kept = {name: os.environ[name] for name in ("PATH", "HOME")}
    ran = subprocess.run(line, cwd=folder, env=kept, stdin=subprocess.DEVNULL, capture_output=True, text=True)
    assert (ran.returncode, ran.stderr) == (status, ""), ran
    return ran.stdout


def test_tarball(dist: Path, version: str, tmp_path: Path) -> None:
    """The static programs need no file of the machine. Those in Python need none but the tarball's own, also if one is
    run by a link from another folder.
    """
    top = unpacked(dist / f"osb-{version}-linux-amd64.tar.gz", tmp_path) / f"osb-{version}"
    programs, in_python = {"osb-broker", "osb-platform", "osb-storm"}, {"osb-audit", "osb-replay-log"}
    others = {"LICENSE", "README.md", "THIRD-PARTY", "osb-replay", "share"}
    assert {path.name for path in top.iterdir()} == others | programs | in_python
    assert digest(top / "osb-replay") == manifest()["osb-replay"]
    for name in in_python:
        (tmp_path / name).symlink_to(top / name)
        assert own(tmp_path, f"./{name}", "--help").startswith(f"usage: {name} ")
    shutil.copytree(TOP / JOURNALS, tmp_path / JOURNALS)
    command, _, report = block("docs/audit.md", f"$ ./osb-audit {JOURNALS}\n").partition("\n")
    assert own(tmp_path, *command.split()[1:], status=1) == report
    for program in programs:
        assert "INTERP" not in run("readelf", "-lW", top / program)
        assert run(top / program, "--version").startswith(f"{program} version {version} ")
    notices = (top / "THIRD-PARTY").read_text()
    for package in ("golang-github-lib-pq-dev", "libsqlite3-dev", "libc6-dev", r"golang-1\.\d+-src"):
        assert re.search(rf"^{package} \S+$", notices, re.MULTILINE), package


# ---- The bill of materials


def bill(dist: Path, version: str) -> dict[str, Any]:
    found = json.loads((dist / f"osb-{version}.spdx.json").read_text(encoding="utf-8"))
    assert isinstance(found, dict)
    return found


def test_bill_has_the_required_fields(dist: Path, version: str) -> None:
    """Those of SPDX 2.3: https://spdx.github.io/spdx-spec/v2.3/ (6 document, 7 packages, 8 files, 11 relationships)."""
    found = bill(dist, version)
    assert (found["spdxVersion"], found["dataLicense"], found["SPDXID"]) == ("SPDX-2.3", "CC0-1.0", "SPDXRef-DOCUMENT")
    assert found["name"] and re.fullmatch(r"https://\S+[^#]", found["documentNamespace"])
    assert re.fullmatch(r"\d{4}-\d\d-\d\dT\d\d:\d\d:\d\dZ", found["creationInfo"]["created"])
    creators = found["creationInfo"]["creators"]
    assert creators and all(re.match("(Person|Organization|Tool): ", creator) for creator in creators)
    ids = ["SPDXRef-DOCUMENT"]
    for package in found["packages"]:
        ids.append(package["SPDXID"])
        assert package["name"] and package["downloadLocation"] and package["filesAnalyzed"] is False
        assert "packageVerificationCode" not in package and "licenseInfoFromFiles" not in package
    for file in found["files"]:
        ids.append(file["SPDXID"])
        assert file["fileName"].startswith("./")
        assert "SHA1" in {checksum["algorithm"] for checksum in file["checksums"]}
    assert len(set(ids)) == len(ids) and all(re.fullmatch("SPDXRef-[a-zA-Z0-9.-]+", element) for element in ids)
    named = {relation[side] for relation in found["relationships"] for side in ("spdxElementId", "relatedSpdxElement")}
    assert named == set(ids)
    assert [relationship for relationship in found["relationships"] if relationship["relationshipType"] == "DESCRIBES"]


def test_bill_has_what_is_linked(dist: Path, version: str) -> None:
    """The packages of go.toolchain, Go, libc and sqlite with their installed versions; and the kit of MANIFEST."""
    found = bill(dist, version)
    packages = {package["name"]: package for package in found["packages"]}
    for name in ("golang-github-lib-pq-dev", "golang-github-spf13-cobra-dev", "libsqlite3-dev", "libc6-dev"):
        installed = run("dpkg-query", "-W", "-f", "${Version}", name)
        assert packages[name]["versionInfo"] == installed
        (reference,) = packages[name]["externalRefs"]
        assert reference["referenceLocator"].startswith(f"pkg:deb/debian/{name}@")
    assert [package for package in packages if re.fullmatch(r"golang-1\.\d+-src", package)]
    assert packages["libsqlite3-dev"]["licenseConcluded"] == "blessing"
    assert packages["golang-github-lib-pq-dev"]["licenseConcluded"] == "MIT"
    assert f"{packages['rattle-kit']['versionInfo']}\n" in read("prebuilt/x86_64-linux/MANIFEST")
    for file in found["files"]:
        sha256 = {checksum["algorithm"]: checksum["checksumValue"] for checksum in file["checksums"]}["SHA256"]
        assert sha256 == digest(dist / file["fileName"])
    assert {entry["fileName"].removeprefix("./") for entry in found["files"]} == {
        path.name for path in dist.iterdir() if path.suffix != ".json" and path.name != "SHA256SUMS"
    }
