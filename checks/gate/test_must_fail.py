"""Mutants that are tried together: which ones, and that each counts as refused only by a failure of its own."""

from __future__ import annotations

import os
import shutil
import sys
from pathlib import Path

import pytest

TOP = Path(__file__).resolve().parents[2]
sys.path.insert(0, str(TOP / "scripts"))

import must_fail  # noqa: E402

SOURCE = """\
/// Adds.
pub fn add(a: u8, b: u8) -> u8 {
    for n in 0..b {
        step(n);
    }
    a + b
}

impl Row {
    pub(crate) const fn first(&self) -> u8 {
        self.first
    }

    fn second(
        &self,
    ) -> u8
    ensures { result ≡ self.now.second }
    {
        self.second
    }
}

const LIMIT: u8 = 7;

pub fn empty() {}

#[tactic(auto)]
#[unsafe(no_mangle)]
pub extern "C" fn third() -> u8 {
    3
}
"""
FIRST = must_fail.Function("src/lib.rt", 10, 12, "first", "Row")
ADD = must_fail.Function("src/lib.rt", 2, 7, "add")


@pytest.fixture
def crate(tmp_path: Path) -> Path:
    (tmp_path / "crates" / "row" / "src").mkdir(parents=True)
    (tmp_path / "crates" / "row" / "src" / "lib.rt").write_text(SOURCE, encoding="utf-8")
    return tmp_path / "crates" / "row"


def edit(crate: Path, name: str, *pairs: tuple[str, str], file: str = "src/lib.rt") -> Path:
    path = crate.parent / f"{name}.edit"
    path.write_text("".join([f"file: {file}\n", *(f"old: {old}\nnew: {new}\n" for old, new in pairs)]))
    return path


@pytest.mark.parametrize(
    ("old", "first", "last", "name"),
    [
        ("a + b", 2, 7, "add"),
        ("step(n)", 2, 7, "add"),
        ("        self.first", 10, 12, "Row::first"),
        ("self.second", 14, 20, "Row::second"),
        ("self.now", 14, 20, "Row::second"),
        ("    3", 27, 31, "third"),
    ],
)
def test_the_function_of_a_change(crate: Path, old: str, first: int, last: int, name: str) -> None:
    mutant = must_fail.read(edit(crate, "one", (old, "0")), crate)
    owner, _, name = name.rpartition("::")
    assert mutant.functions == {must_fail.Function("src/lib.rt", first, last, name, owner)}


@pytest.mark.parametrize(
    ("head", "owner"),
    [
        ("impl Row {", "Row"),
        ("impl<K> Rows<K> {", "Rows"),
        ("impl Ord for Id {", "IdOrd"),
        ("impl<K: Key> std::hash::Hash for ids::Id<K> {", "IdHash"),
        ("impl<'v> From<Option<&'v str>> for Row {", "RowFrom"),
        ("mod inner {", ""),
    ],
)
def test_the_owner_of_a_function(head: str, owner: str) -> None:
    """As in what the prover says: fn osb_message::ids::IdOrd::cmp."""
    lines = ["pub struct Row;", head, "    fn first() -> u8 {", "        1", "    }", "", "    fn second() {"]
    assert must_fail.owner_of(lines) == owner
    assert must_fail.owner_of([*lines[:-1], "}", "pub fn free() {"]) == ""
    function = must_fail.Function("src/ids/mod.rt", 1, 9, "cmp", owner)
    assert function.path() == "::".join(filter(None, ["ids", owner, "cmp"]))


@pytest.mark.parametrize(
    ("old", "file"),
    [("7;", "src/lib.rt"), ("self", "src/lib.rt"), ("not there", "src/lib.rt"), ("a + b", "specs/Lib.antt")],
)
def test_what_is_not_tried_with_others(crate: Path, old: str, file: str) -> None:
    """A change outside functions, one that can't be applied, and one of a definition."""
    with pytest.raises(must_fail.Unfit):
        must_fail.read(edit(crate, "one", (old, "0"), file=file), crate)


def test_an_edit_without_a_change_is_not_tried_with_others(crate: Path) -> None:
    with pytest.raises(must_fail.Unfit):
        must_fail.read(edit(crate, "one"), crate)


NAMESAKES = """\
impl One {
    fn get(&self) -> u8 {
        1
    }
}

impl Two {
    fn get(&self) -> u8 {
        2
    }
}
"""


@pytest.mark.parametrize(
    ("proofs", "is_fit"),
    [("proofs/pair/Two/get", False), ("proofs/pair/get", False), ("proofs/other/get", True), ("proofs/pair/set", True)],
)
def test_functions_of_one_name(crate: Path, proofs: str, is_fit: bool) -> None:
    """A line that reports the failed proof of one of them would count for the other one, too."""
    (crate / "src" / "pair.rt").write_text(NAMESAKES, encoding="utf-8")
    (crate / proofs).mkdir(parents=True)
    fit = list(must_fail.fit([edit(crate, "one", ("        1", "        3"), file="src/pair.rt")], crate))
    assert len(fit) == is_fit
    # A module's own function differs from that of the module below it, and not the other way round.
    (crate / "src" / "pair").mkdir()
    (crate / "src" / "pair" / "inner.rt").write_text("fn second() -> u8 {\n    4\n}\n", encoding="utf-8")
    (crate / "proofs" / "pair" / "inner" / "second").mkdir(parents=True)
    assert list(must_fail.fit([edit(crate, "two", ("self.second", "0"))], crate)) == []
    assert len(list(must_fail.fit([edit(crate, "three", ("    4", "    5"), file="src/pair/inner.rt")], crate))) == 1


def test_groups_have_one_mutant_of_a_function(crate: Path) -> None:
    edits = [
        edit(crate, "one", ("a + b", "a")),
        edit(crate, "two", ("step(n)", "step(0)")),
        edit(crate, "three", ("self.second", "0")),
        edit(crate, "four", ("self.first", "1"), ("0..b", "0..a")),
    ]
    names = [[mutant.name for mutant in group] for group in must_fail.groups(must_fail.fit(edits, crate))]
    assert names == [["one.edit", "three.edit"], ["two.edit"], ["four.edit"]]


def test_changes_of_one_file_are_made_together(crate: Path) -> None:
    second_name = crate.parent / "second_name"
    os.link(crate / "src" / "lib.rt", second_name)
    edits = [edit(crate, "one", ("a + b", "longer than before")), edit(crate, "two", ("        self.second", "0"))]
    must_fail.apply(must_fail.fit(edits, crate), crate)
    wanted = SOURCE.replace("a + b", "longer than before").replace("        self.second", "0")
    assert (crate / "src" / "lib.rt").read_text(encoding="utf-8") == wanted
    assert second_name.read_text(encoding="utf-8") == SOURCE


NOT_PROVED = "logic=not-proved functions=3\n"
PART = "only=3 proved=1\n"
ONE = must_fail.Mutant("one.edit", [], {ADD})
TWO = must_fail.Mutant("two.edit", [], {FIRST})


def answer(place: str) -> str:
    return f"./proofs/{place}/Answers.antt:8:43: error: `returns-in-Ok`: `omega`: the goal does not follow\n"


def failure(line: int, file: str = "src/lib.rt") -> str:
    return f"note: {file}:{line}:5: it is not proved that what the function ensures holds (`returns`)\n"


@pytest.mark.parametrize(
    ("output", "names"),
    [
        (failure(4) + failure(10) + NOT_PROVED, {"one.edit", "two.edit"}),
        (failure(4) + NOT_PROVED, {"one.edit"}),
        (failure(4) + failure(10) + PART, {"one.edit", "two.edit"}),
        (failure(4) + failure(8) + PART, set()),
        (answer("add") + answer("Row/first") + NOT_PROVED, {"one.edit", "two.edit"}),
        (answer("add").removeprefix("./") + failure(11) + NOT_PROVED, {"one.edit", "two.edit"}),
        (answer("add") + answer("Row/second") + NOT_PROVED, set()),
        (failure(8) + NOT_PROVED, set()),
        (failure(4) + failure(10) + failure(18) + NOT_PROVED, set()),
        (failure(4) + failure(10, "src/row.rt") + NOT_PROVED, set()),
        (failure(4) + failure(10), set()),
        ("src/lib.rt:4:5: error[E0308]: mismatched types\n", set()),
        ("fn row::add: no proof: it calls `row::step`, which is not proved\n" + NOT_PROVED, set()),
        (f"| {failure(4)}{NOT_PROVED}", set()),
    ],
)
def test_each_is_refused_by_itself(output: str, names: set[str]) -> None:
    assert must_fail.refused([ONE, TWO], 1, output) == names


@pytest.mark.parametrize("status", [0, 2, 3, -9])
def test_only_a_verdict_counts(status: int) -> None:
    assert must_fail.refused([ONE, TWO], status, failure(4) + failure(10) + NOT_PROVED) == set()


@pytest.mark.parametrize(
    ("file", "place", "fails"),
    [
        ("src/ids.rt", "ids/Id/from_bytes", True),
        ("src/ids/mod.rt", "ids/from_bytes", True),
        ("src/ids/text.rt", "ids/text/Id/from_bytes", True),
        ("src/main.rt", "from_bytes", True),
        ("src/ids.rt", "rows/Id/from_bytes", False),
        ("src/ids.rt", "ids/Id/from_text", False),
        ("src/ids.rt", "ids/from_bytes/more", False),
    ],
)
def test_an_answer_is_its_functions(file: str, place: str, fails: bool) -> None:
    function = must_fail.Function(file, 1, 9, "from_bytes")
    match = must_fail.FAILED.match(answer(place))
    assert match is not None and function.fails(match) == fails


def test_a_mutant_of_two_functions_needs_both_failures() -> None:
    both = must_fail.Mutant("both.edit", [], {ADD, FIRST})
    assert must_fail.refused([both], 1, failure(4) + NOT_PROVED) == set()
    assert must_fail.refused([both], 1, failure(4) + failure(11) + NOT_PROVED) == {"both.edit"}


# Stands for rt. A line of the source with `wrong` isn't proved, one with `spreads` makes another function fail, too,
# and one with `same` is proved. `rt must-fail` refuses each edit whose text isn't `same`.
RT = """\
#!/usr/bin/env python3
import pathlib, sys
if sys.argv[1] == "check":
    pathlib.Path("checks").open("a").write(" ".join(sys.argv[1:]) + "\\n")
    if "--only" in sys.argv and pathlib.Path("nameless").exists():
        sys.exit(2)
    lines = pathlib.Path("src/lib.rt").read_text(encoding="utf-8").splitlines()
    failed = [n for n, line in enumerate(lines, 1) if "wrong" in line or "spreads" in line]
    failed += [24 for line in lines if "spreads" in line]
    for n in failed:
        print(f"note: src/lib.rt:{n}:5: it is not proved that it ends")
    print("only=3 proved=2" if "--only" in sys.argv else "logic=not-proved" if failed else "logic=proved")
    sys.exit(1 if failed else 0)
for edit in sorted(pathlib.Path("crates", sys.argv[2], "must-fail").glob("*.edit")):
    said = "NOT REFUSED" if "new: same" in edit.read_text() else "refused, as it must be: src/lib.rt:2:1"
    print(f"rt: must-fail {sys.argv[2]}/{edit.name}: {said}")
"""


@pytest.fixture
def rt(tmp_path: Path, monkeypatch: pytest.MonkeyPatch) -> None:
    path = tmp_path / "bin" / "rt"
    path.parent.mkdir()
    path.write_text(RT.replace("/usr/bin/env python3", sys.executable))
    path.chmod(0o755)
    monkeypatch.setenv("PATH", f"{path.parent}:{os.environ['PATH']}")


@pytest.mark.slow
def test_those_that_are_refused_together_need_one_check(crate: Path, rt: None) -> None:
    edits = [edit(crate, "one", ("a + b", "wrong")), edit(crate, "two", ("self.second", "wrong"))]
    assert dict(must_fail.try_all(crate, edits)) == {"one.edit": "in a check of 2", "two.edit": "in a check of 2"}
    assert (crate / "checks").read_text() == "check --jobs 1 --only Row::second --only add\n"
    assert (crate / "src" / "lib.rt").read_text(encoding="utf-8") == SOURCE


@pytest.mark.slow
def test_a_name_that_the_prover_does_not_know(crate: Path, rt: None) -> None:
    (crate / "nameless").touch()
    edits = [edit(crate, "one", ("a + b", "wrong")), edit(crate, "two", ("self.second", "wrong"))]
    assert dict(must_fail.try_all(crate, edits)) == {"one.edit": "in a check of 2", "two.edit": "in a check of 2"}
    assert (crate / "checks").read_text().splitlines()[1:] == ["check --jobs 1"]


@pytest.mark.slow
def test_what_is_not_refused_together_is_tried_alone(crate: Path, rt: None) -> None:
    """One that the prover accepts, one whose failure spreads, one outside functions, and one that can't be applied."""
    edits = [
        edit(crate, "accepted", ("a + b", "same")),
        edit(crate, "spreads", ("self.second", "spreads")),
        edit(crate, "constant", ("7;", "8;")),
        edit(crate, "wrong", ("self.first", "wrong")),
    ]
    assert dict(must_fail.try_all(crate, edits)) == {
        "spreads.edit": "by rt must-fail",
        "constant.edit": "by rt must-fail",
        "wrong.edit": "by rt must-fail",
    }


@pytest.mark.slow
@pytest.mark.whole
@pytest.mark.long(40)
def test_a_check_of_a_part(tmp_path: Path) -> None:
    """The prover refuses the mutants of osb_device in a check of their functions, and proves these as they stand."""
    if shutil.which("rt") is None:
        pytest.skip("rt isn't installed")
    row = next(line for line in (TOP / "crates.txt").read_text().splitlines() if line.startswith("osb_device:"))
    (tmp_path / "crates.txt").write_text(f"{row}\n")
    crate = tmp_path / "crates" / "osb_device"
    for part in ("src", "specs", "proofs"):
        shutil.copytree(TOP / "crates" / "osb_device" / part, crate / part)
    edits = sorted((TOP / "crates" / "osb_device" / "must-fail").glob("*.edit"))
    mutants = list(must_fail.fit(edits, crate))
    assert [mutant.name for mutant in mutants] == [mutant.name for mutant in edits]
    status, output = must_fail.run(crate, "check", "--jobs", "1", *must_fail.only(mutants))
    assert status == 0, output
    assert dict(must_fail.try_all(crate, edits)) == {mutant.name: f"in a check of {len(edits)}" for mutant in edits}
