"""The packages for Debian: `osb` has the programs, the library and the units, `osb-dev` what C compiles over."""

from __future__ import annotations

import hashlib
import math
import os
import re
import time
from email.utils import formatdate
from pathlib import Path

from release import pages, python_programs
from release.archives import compressed
from release.linked import Package, notices
from release.sources import PROGRAMS, SERVICES, TOP, Sources, run

FILES = TOP / "release" / "deb"
LIBRARIES = "usr/lib/x86_64-linux-gnu"


class Tree:
    """The files of a package, before they are packed."""

    def __init__(self, folder: Path, name: str, sources: Sources) -> None:
        self.folder, self.name, self._sources = folder, name, sources
        folder.mkdir(parents=True)

    def put(self, name: str, content: bytes | str | Path, mode: int = 0o644) -> None:
        """Adds a file: a copy of one, or one with this content."""
        target = self.folder / name
        target.parent.mkdir(parents=True, exist_ok=True)
        if isinstance(content, Path):
            content = content.read_bytes()
        target.write_bytes(content if isinstance(content, bytes) else content.encode())
        target.chmod(mode)

    def link(self, name: str, to: str) -> None:
        """Adds a symbolic link."""
        (self.folder / name).symlink_to(to)

    def control(self, template: Path, **values: str) -> None:
        """Adds the control file, in which ${NAME} has the value of the name, and its lists of files."""
        text = template.read_text(encoding="utf-8")
        values = {
            "Version": self._sources.version,
            "Installed_Size": str(self._size()),
            "Maintainer": maintainer(),
            **values,
        }
        text = re.sub(r"\$\{(\w+)\}", lambda it: values[it[1]], text)
        self.put("DEBIAN/md5sums", self._sums())
        etc = [file for file in self._files() if file.startswith("etc/")]
        if etc:
            self.put("DEBIAN/conffiles", "".join(f"/{name}\n" for name in etc))
        self.put("DEBIAN/control", text)

    def pack(self, into: Path) -> Path:
        """Writes the package. All its files belong to root, and have the time of the release."""
        made = into / f"{self.name}_{self._sources.version}_amd64.deb"
        for path in [self.folder, *self.folder.rglob("*")]:
            if path.is_dir() and not path.is_symlink():
                path.chmod(0o700 if path == self.folder / "etc" / "osb" else 0o755)
            os.utime(path, (self._sources.epoch, self._sources.epoch), follow_symlinks=False)
        options = ("--root-owner-group", "--threads-max=1", "-Zxz")
        epoch = {"SOURCE_DATE_EPOCH": str(self._sources.epoch)}
        run("dpkg-deb", *options, "--build", self.folder, made, environment=epoch)
        return made

    def _files(self) -> list[str]:
        found = (path for path in self.folder.rglob("*") if path.is_file() and not path.is_symlink())
        return sorted(
            str(path.relative_to(self.folder)) for path in found if path.relative_to(self.folder).parts[0] != "DEBIAN"
        )

    def _sums(self) -> str:
        lines = ((file, hashlib.md5((self.folder / file).read_bytes()).hexdigest()) for file in self._files())
        return "".join(f"{digest}  {line}\n" for line, digest in lines if not line.startswith("etc/"))

    def _size(self) -> int:
        """In KiB, as dpkg-gencontrol counts: each file is rounded up, and all else is 1."""
        found = list(self.folder.rglob("*"))
        files = [path for path in found if path.is_file() and not path.is_symlink()]
        return sum(math.ceil(path.stat().st_size / 1024) for path in files) + len(found) - len(files)


def maintainer() -> str:
    """Who makes the package: DEBFULLNAME and DEBEMAIL, as Debian's tools have them."""
    name = os.environ.get("DEBFULLNAME", "Pippinterm")
    return f"{name} <{os.environ.get('DEBEMAIL', 'packages@pippinterm.example')}>"


def build(sources: Sources, linked: list[Package], folder: Path, into: Path) -> list[Path]:
    """Writes both packages. `folder`: a new one for what it needs meanwhile."""
    trees = [_programs(sources, linked, folder), _development(sources, folder)]
    return [tree.pack(into) for tree in trees]


# ---- The package osb


def _programs(sources: Sources, linked: list[Package], folder: Path) -> Tree:
    tree = Tree(folder / "osb", "osb", sources)
    for program in sources.programs:
        tree.put(f"usr/bin/{program.name}", program, 0o755)
    tree.put("usr/bin/osb-replay", sources.replay, 0o755)
    _python_programs(tree)
    tree.put(f"{LIBRARIES}/libosb.so.{sources.version}", sources.library / "libosb.so")
    tree.link(f"{LIBRARIES}/libosb.so.0", f"libosb.so.{sources.version}")
    _pages(tree, sources)
    for name in SERVICES:
        tree.put(f"lib/systemd/system/{name}.service", TOP / "release" / "systemd" / f"{name}.service")
        tree.put(f"etc/default/{name}", FILES / f"{name}.default")
    (tree.folder / "etc" / "osb").mkdir()
    _documents(tree, sources)
    _guides(tree)
    tree.put("usr/share/doc/osb/THIRD-PARTY.gz", compressed(notices(linked).encode()))
    tree.put("usr/share/lintian/overrides/osb", FILES / "osb.lintian-overrides")
    built_using = ", ".join(sorted({f"{package.source} (= {package.source_version})" for package in linked}))
    tree.control(FILES / "osb.control", Depends=_depends(tree, folder), Built_Using=built_using)
    for name in ("postinst", "prerm", "postrm"):
        tree.put(f"DEBIAN/{name}", FILES / f"osb.{name}", 0o755)
    major, minor, _ = sources.version.split(".")
    bounds = f"osb (>= {sources.version}), osb (<< {major}.{int(minor) + 1}~)"
    tree.put("DEBIAN/shlibs", f"libosb 0 {bounds}\n")
    tree.put("DEBIAN/triggers", "activate-noawait ldconfig\n")
    return tree


def _python_programs(tree: Tree) -> None:
    """The programs in Python. They find the library as every program does."""
    for name in python_programs.NAMES:
        text = python_programs.launcher(name, "/usr", "bin/osb-replay", "/usr/bin/python3")
        tree.put(f"usr/bin/{name}", text, 0o755)
    for name, file in python_programs.modules().items():
        tree.put(f"usr/{python_programs.SHARE}/{name}", file)


def _pages(tree: Tree, sources: Sources) -> None:
    """The manual pages, and what completes command lines."""
    month = time.strftime("%B %Y", time.gmtime(sources.epoch))
    for name in pages.ABOUT:
        text = pages.page(name, pages.help_of(name, sources.replay), sources.version, month)
        tree.put(f"usr/share/man/man1/{name}.1.gz", compressed(text.encode()))
    for path in sorted((sources.built / "pages").glob("*.1")):
        tree.put(f"usr/share/man/man1/{path.name}.gz", compressed(path.read_bytes()))
    for name in PROGRAMS:
        tree.put(f"usr/share/bash-completion/completions/{name}", sources.built / "pages" / f"{name}.bash")
        tree.put(f"usr/share/zsh/vendor-completions/_{name}", sources.built / "pages" / f"_{name}")


def _guides(tree: Tree) -> None:
    """The pages that the programs name in their help. They lie as in the sources, so that their links lead on."""
    for page in [*TOP.glob("*.md"), *(TOP / "docs").rglob("*.md"), *(TOP / "docs").rglob("*.svg")]:
        tree.put(f"usr/share/doc/osb/{page.relative_to(TOP)}", page)


def _depends(tree: Tree, folder: Path) -> str:
    """The packages of the shared libraries that the package's files need."""
    description = folder / "debian" / "control"
    description.parent.mkdir()
    description.write_text("Source: osb\n\nPackage: osb\nArchitecture: amd64\n")
    shared = [
        path
        for path in (tree.folder / "usr").rglob("*")
        if path.name == "osb-replay" or path.name.startswith("libosb.so.0.")
    ]
    found = run("dpkg-shlibdeps", "-O", *(f"-e{name}" for name in sorted(shared)), folder=folder)
    return found.strip().removeprefix("shlibs:Depends=")


# ---- The package osb-dev, and what both have


def _development(sources: Sources, folder: Path) -> Tree:
    tree = Tree(folder / "osb-dev", "osb-dev", sources)
    tree.put("usr/include/osb.h", TOP / "include" / "osb.h")
    tree.put(f"{LIBRARIES}/libosb.a", sources.library / "libosb.a")
    tree.link(f"{LIBRARIES}/libosb.so", "libosb.so.0")
    script = f'top=$PWD who=release; . scripts/artifacts.sh; describe "/{LIBRARIES}" /usr/include'
    tree.put(f"{LIBRARIES}/pkgconfig/osb.pc", run("bash", "-c", script))
    _documents(tree, sources)
    tree.control(FILES / "osb-dev.control")
    return tree


def _documents(tree: Tree, sources: Sources) -> None:
    """The copyright, and the changelog in Debian's form, which points to the project's own."""
    place = f"usr/share/doc/{tree.name}"
    tree.put(f"{place}/copyright", FILES / "copyright")
    date = formatdate(sources.epoch)
    entry = "  * CHANGELOG.md of the sources has the changes of this version."
    changelog = f"osb ({sources.version}) unstable; urgency=medium\n\n{entry}\n\n -- {maintainer()}  {date}\n"
    tree.put(f"{place}/changelog.gz", compressed(changelog.encode()))
