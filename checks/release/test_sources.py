"""Why there is no release, and what the parts of one are made from."""

from __future__ import annotations

from pathlib import Path

import pytest
from commands import needs, printed

from release import linked, sources
from release.archives import Entry, compressed, tar


def test_another_version_in_the_header(monkeypatch: pytest.MonkeyPatch, tmp_path: Path) -> None:
    (tmp_path / "include").mkdir()
    header = (sources.TOP / "include" / "osb.h").read_text(encoding="utf-8")
    (tmp_path / "include" / "osb.h").write_text(header)
    (tmp_path / "VERSION").write_text("9.8.7\n")
    monkeypatch.setattr(sources, "TOP", tmp_path)
    with pytest.raises(sources.Failed, match=r"VERSION has 9\.8\.7, and include/osb\.h has \d+\.\d+\.\d+"):
        sources.version()


def test_time_of_the_release(monkeypatch: pytest.MonkeyPatch) -> None:
    monkeypatch.setenv("SOURCE_DATE_EPOCH", "1700000000")
    assert sources.epoch() == 1700000000
    monkeypatch.setenv("SOURCE_DATE_EPOCH", "yesterday")
    with pytest.raises(sources.Failed, match="'yesterday'"):
        sources.epoch()


def test_missing_tool_is_named_with_its_package(monkeypatch: pytest.MonkeyPatch, tmp_path: Path) -> None:
    monkeypatch.setenv("PATH", str(tmp_path))
    with pytest.raises(sources.Failed, match="install .*umoci: apt-get install .*dpkg-dev.* umoci$"):
        sources.check_tools()


def test_licences_of_a_copyright_file(tmp_path: Path) -> None:
    """Those of what is linked, and not those of Debian's own files or of tests."""
    file = tmp_path / "copyright"
    stanzas = ["Files: *\nLicense: Expat", "Files: a/*\nLicense: BSD-3-clause", "Files: debian/*\nLicense: GPL-2+"]
    file.write_text("\n\n".join([*stanzas, "Files: testdata/x\nLicense: WTFPL", "License: Expat\n text"]))
    assert linked.licence("golang-example-dev", file) == "BSD-3-Clause AND MIT"
    assert linked.licence("libgcc-12-dev", file) == "GPL-3.0-or-later WITH GCC-exception-3.1"


@pytest.mark.parametrize("text", ["Files: *\nLicense: Unheard-of", "no stanza"])
def test_licence_that_is_not_known(text: str, tmp_path: Path) -> None:
    """It fails, and isn't left out of the bill of materials."""
    file = tmp_path / "copyright"
    file.write_text(text)
    with pytest.raises(sources.Failed, match="Unheard-of|no licence"):
        linked.licence("golang-example-dev", file)


def test_archive_depends_on_nothing_else(monkeypatch: pytest.MonkeyPatch) -> None:
    entries = [Entry("folder", None, 0o755), Entry("folder/file", b"text", 0o644, 65534)]
    first = compressed(tar(entries, 1700000000))
    monkeypatch.setattr("time.time", lambda: 0.0)
    assert compressed(tar(entries, 1700000000)) == first
    assert compressed(tar(entries, 1700000001)) != first


def test_make_has_the_target() -> None:
    needs("make")
    assert printed(["make", "--no-print-directory", "-n", "release"], sources.TOP).endswith(" -m release\n")
