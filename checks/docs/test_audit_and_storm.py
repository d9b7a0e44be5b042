"""The commands of the pages about journals, audits and storms: each is run as it stands there, but for ports, names and
times, or it is named here with the reason why it isn't.
"""
from __future__ import annotations

import re
import shlex

import pytest
from commands import needs
from docs.guides import healthy, moved
from docs.pages import block, covers, read, uncovered
from docs.programs import is_read_by
from docs.workdir import Workdir

JOURNAL, AUDIT, STORM = "docs/journal.md", "docs/audit.md", "docs/storm.md"
ONE = "00000000-0000-0000-0000-000000000001"

pytestmark = [pytest.mark.slow, pytest.mark.usefixtures("broker", "platform", "storm")]

OF_YOURS = "   ./osb-storm broker --url https://broker.example --user NAME --password-file password"
LISTED = f"{OF_YOURS} --html storm.html \\\n       --list-command 'ls /srv/instances'"
MORE = "a later command of the page is the same with more options"
YOURS = "it needs a platform of your own. The last commands of the section have osb-platform instead"

# The blocks that no test here runs, by their beginnings, and why.
NOT_RUN = {
    AUDIT: {
        "$ ./osb-audit examples/journals\n": "test_embedded_blocks_are_current runs it",
        "sudo osb-audit ": "it needs the services of the package. checks/release runs osb-audit of the package",
        "PYTHONPATH=checks:. python3 -m bench.journals ": "a million lines. checks/audit has 60,000 in its place",
    },
    STORM: {
        f"{OF_YOURS} --html storm.html\n": MORE,
        f"{LISTED}\n": MORE,
        f"{OF_YOURS} --seed ": "osb-broker loses nothing. checks/conform has a broker that does",
        "./osb-storm both --seed SEED --minimize ": "both programs lose nothing. checks/storm has a broker that does",
        "0 lost, ": "it isn't a command",
        "   (umask 077; echo 'the password' >password)\n   ./osb-storm platform ": YOURS,
        "   ./osb-storm platform --listen 127.0.0.1:8090 --password-file password ": YOURS,
        "./osb-storm platform --listen 127.0.0.1:8090 --password-file password --minimize ": YOURS,
        "./osb-storm both --seconds 120 --workers 3 ": "it takes minutes. checks/storm has a shorter one",
        "for program in ": "it takes minutes. checks/storm visits all crash points",
        "./osb-storm both --without work ": "checks/storm builds the programs that it needs, and runs it",
    },
}


@pytest.mark.parametrize("page", [JOURNAL, AUDIT, STORM])
def test_each_block_is_run_or_named(page: str) -> None:
    assert set(uncovered(page)) == {block(page, beginning) for beginning in NOT_RUN.get(page, ())}


# ---- journals and audits


def life(port: int, *commands: str) -> str:
    """The commands that create an instance by a platform, which asks for the catalogue first."""
    create = f"./osb-platform create --id {ONE} --service folder --plan at-once --wait >>orders 2>&1"
    return f"{moved(''.join(commands), port)}until {create}; do sleep 0.2; done\n"


@covers(
    AUDIT,
    "   OSB_BROKER_PASSWORD=secret ./osb-broker serve --journal ",
    "   OSB_PLATFORM_PASSWORD=secret ./osb-platform run --broker ",
    "   ./osb-audit journals/broker ",
    "./osb-audit --unjudged 1 ",
)
def test_audit(texts: list[str], workdir: Workdir, port: int) -> None:
    """A life of an instance is audited while the programs run, and again once they have ended."""
    serve, work, audit, strict = texts
    remove = f"./osb-platform remove {ONE} --wait >>orders\n"
    out = workdir.run(f"{life(port, serve, work)}{remove}{audit}kill %2 %1; wait\n{audit}{strict}")
    assert out.count("1 instance, 14 events, 0 differences\n") == 3, out


@covers(AUDIT, "./osb-audit --json examples/journals | ")
def test_picture_of_a_difference(texts: list[str], workdir: Workdir) -> None:
    needs("jq")
    workdir.run(texts[0])
    assert (workdir.top / "difference.svg").read_text(encoding="utf-8").count('class="number"') == 7


_NAME = re.compile(r"^(?:broker|platform)-\d{8}T\d{6}\.\d{6}Z-[0-9a-f]{16}-\d{6}\.jsonl$", re.MULTILINE)
ALL, OF_BROKERS = "cat journals/*/*.jsonl | jq ", "cat journals/broker/*.jsonl | jq "


@covers(
    JOURNAL,
    "OSB_BROKER_PASSWORD=secret ./osb-broker serve --journal ",
    "broker-2",
    ALL,
    "1795790082366051\t",
    f'{OF_BROKERS}-cR \'fromjson? | select(.event == "answered"',
    f"{OF_BROKERS}-cR --arg id ",
    "find journals ",
)
def test_journal(texts: list[str], workdir: Workdir, port: int) -> None:
    """jq shows a creation as the page does, no answer of 500, and two holdings. Old files are deleted."""
    needs("jq")
    begin, name, show, shown, failed, held, delete = texts
    out = workdir.run(
        f"{life(port, begin)}kill %2 %1; wait\necho --\nls journals/broker journals/platform\nid={ONE}\n"
        f"echo --\n{show}echo --\n{failed}echo --\n{held}"
        f"touch -d '31 days ago' journals/broker/*\n{delete}echo --\nls journals/broker"
    )
    _, names, printed, failures, holdings, left = out.split("--\n")
    assert len(_NAME.findall(f"{names}{name}")) == 3, names
    untimed = [[line.rstrip().split("\t")[1:] for line in text.splitlines()] for text in (printed, shown)]
    assert untimed[0] == untimed[1]
    assert (failures, left) == ("", "")
    assert [("ready" in line, "tombstone" in line) for line in holdings.splitlines()] == [(False, True), (True, True)]


@covers(JOURNAL, "OSB_BROKER_OPTIONS=", "OSB_PLATFORM_OPTIONS=")
def test_options_of_the_units(texts: list[str]) -> None:
    for text, program, command in zip(texts, ("osb-broker", "osb-platform"), ("serve", "run")):
        is_read_by(program, [command, *shlex.split(shlex.split(text)[0].partition("=")[2])])


# ---- storms


def here(text: str, port: int, workdir: Workdir) -> str:
    """The commands, for an osb-broker of the test's own in place of one of the reader's."""
    state = str(workdir.folder / "storm-state")
    values = {
        "https://broker.example": f"http://127.0.0.1:{port}",
        "-u NAME ": "-u platform:secret ",
        "NAME": "platform",
        "SERVICE ": "folder ",
        "PLAN ": "by-worker ",
        "the password": "secret",
        "/tmp/storm-state": state,
        "/srv/instances": f"{state}/instances",
        ":8080": f":{port}",
        "systemctl kill -s KILL broker; systemctl start broker": "./restart",
    }
    for old, new in values.items():
        text = text.replace(old, new)
    return text


def shorter(text: str, *times: str) -> str:
    """A command with other times."""
    return f"{text.rstrip()} {' '.join(times)}\n"


SERVE = "OSB_BROKER_PASSWORD=secret ./osb-broker serve --state /tmp/storm-state "
PASSWORD = "   (umask 077; echo 'the password' >password)\n"
CONFORM = "   ./osb-storm conform --url https://broker.example --user NAME --password-file password"


_FAILED = re.compile(r"^FAIL +[A-Z]+ +(\S+)", re.MULTILINE)


@covers(
    STORM,
    SERVE,
    PASSWORD,
    f"{CONFORM}\n",
    f"{CONFORM} \\\n",
    "   curl -u NAME ",
    "OSB_BROKER_PASSWORD=secret ./osb-storm conform --url http://127.0.0.1:8080",
)
def test_conform(texts: list[str], workdir: Workdir, port: int) -> None:
    """Each plan fails only what the page says: the synchronous one, which is tried twice, and the asynchronous one."""
    needs("curl")
    serve, password, first, other, catalogue, own = (here(text, port, workdir) for text in texts)
    first, own, other = (shorter(line, "--poll-seconds 0.01 || [ $? = 1 ]") for line in (first, own, other))
    out = workdir.run(
        f"{serve.strip()} &\n{healthy(port)}{password}{first}{own}echo --\n{other}{catalogue}kill %1; wait $!"
    )
    passed, _, failed = out.partition("--\n")
    decided, during_update, own_choice = re.findall(r"^\| `([a-z-]+)` \| M[AUSTY]+ \| (?:409|503)", read(STORM), re.M)
    assert passed.count("\npass ") > 100 and set(_FAILED.findall(passed)) - {during_update} == {own_choice}, passed
    assert set(_FAILED.findall(failed)) - {during_update} == {own_choice, decided}, failed
    assert (workdir.top / "report.json").exists() and '"services":' in failed


AUDITED = re.compile("^[1-9][0-9]* instances?, [0-9,]+ events, 0 differences$", re.MULTILINE)
# Few requests are sent in a second on a busy machine. Nearly all have a fault, since a storm without one reports that.
SHORT = (
    *("--seconds 1", "--instances 5", "--request-seconds 0.5", "--late-seconds 0.8", "--poll-seconds 0.1", "--seed=1"),
    "--fault-percent 90",
)
RESTART = """#!/bin/sh
kill -KILL "$(cat pid)"
%s 2>>log &
echo $! >pid
"""


@covers(
    STORM, SERVE, PASSWORD, f"{LISTED} ", "OSB_BROKER_PASSWORD=secret ./osb-storm broker --url http://127.0.0.1:8080 "
)
def test_storm_of_a_broker(texts: list[str], workdir: Workdir, port: int) -> None:
    """osb-broker loses nothing, also if it is killed, and the journals are as the model says."""
    needs("curl")
    serve, password, kills, own = (here(text, port, workdir) for text in texts)
    serve, times = f"{serve.strip()} --journal journals/broker/", (*SHORT, "--journal journals")
    restart = workdir.top / "restart"
    restart.write_text(RESTART % serve, encoding="utf-8")
    restart.chmod(0o755)
    out = workdir.run(
        f"{serve} &\n{healthy(port)}echo $! >pid\n{password}{shorter(own, *times)}{shorter(kills, *times)}"
        "kill $(cat pid)\n./osb-audit --unjudged 0 journals/broker journals/platform\n"
    )
    assert len(re.findall("^0 lost, 0 false records, ", out, re.MULTILINE)) == 2, out
    assert "\n10 instances, " in out and AUDITED.search(out), out
    assert "<h1>Storm " in (workdir.top / "storm.html").read_text(encoding="utf-8")


JOURNALING = "OSB_BROKER_PASSWORD=secret ./osb-storm broker --journal journals "


@covers(STORM, "OSB_BROKER_PASSWORD=secret ./osb-broker serve --journal journals/broker/ ", JOURNALING)
def test_audit_of_a_storm(texts: list[str], workdir: Workdir, port: int) -> None:
    """The journals of osb-broker and of the storm's platform are as the model says."""
    serve, storm = (here(text, port, workdir) for text in texts)
    run, audit = storm.split("./osb-audit")
    out = workdir.run(f"{serve.strip()} &\n{healthy(port)}{shorter(run, *SHORT)}./osb-audit{audit}kill %1; wait $!\n")
    assert "0 lost, 0 false records, " in out, out
    assert AUDITED.search(out), out


@covers(
    STORM,
    "OSB_BROKER_PASSWORD=secret ./osb-storm platform --listen 127.0.0.1:8090 ",
    "mkdir -m 700 /tmp/storm-platform ",
    "./osb-platform list --state ready ",
    "kill $!\n",
    "./osb-audit --unjudged 0 journals/broker journals/platform",
)
def test_storm_of_a_platform(texts: list[str], workdir: Workdir, port: int) -> None:
    """osb-platform abandons nothing, and is stopped after the storm. The journals are as the model says."""
    folder = str(workdir.folder / "storm-platform")
    moved_ = [text.replace(":8090", f":{port}").replace("/tmp/storm-platform", folder) for text in texts]
    start, work, lists, end, audit = moved_
    times = "--seconds 2", "--late-seconds 1", "--operation-seconds 0.5"
    start = shorter(start, *times, "--seed=1", "--journal journals")
    work = work.replace("./osb-platform run ", "./osb-platform run --journal journals/platform/ ")
    out = workdir.run(
        f"{start.strip()} >printed &\nuntil grep -q listens printed; do sleep 0.1; done\n"
        f"{work.replace('sleep 5', 'sleep 1')}wait %1\n{lists}{end}wait $!\necho --\ncat printed\n{audit}"
    )
    ids, _, printed = out.partition("--\n")
    assert "\n0 abandoned, 0 false records, " in printed and AUDITED.search(printed), printed
    assert len(ids.split()) >= 4, out


@covers(STORM, "export OSB_PLATFORM_STORE=/tmp/storm-orders/store ")
def test_orders_of_a_platform(texts: list[str], workdir: Workdir, port: int) -> None:
    """The order command has osb-platform create four instances, or more if a creation fails, and none is abandoned."""
    text = texts[0].replace(":8090", f":{port}").replace("/tmp/", f"{workdir.folder}/")
    text = text.replace("--store-password", "--store-password --first-pace 0.1 --longest-pace 0.3")
    text = text.replace("run --seconds 2 ", "run --seconds 1 --look-seconds 0.1 ")
    times = "--late-seconds 1", "--operation-seconds 0.5", "--fault-percent 20", "--seed=1"
    out = workdir.run(shorter(text, *times))
    created = re.search("^([0-9]+) instances, ", out, re.MULTILINE)
    assert created is not None and int(created[1]) >= 4 and "\n0 abandoned, 0 false records, " in out, out


@covers(STORM, "./osb-broker serve --help ", "./osb-storm both --journal ")
def test_storm_of_both(texts: list[str], workdir: Workdir) -> None:
    """Nothing is lost, and the journals are as the model says."""
    first, journal = texts
    times = " --seconds 2 --instances 4 --late-seconds 1 --seed=1"
    run, audit = journal.split("\n", 1)
    out = workdir.run(
        f"{first.rstrip()}{times} --journal first\n{run}{times}\n{audit}{audit.replace('journals/', 'first/')}"
    )
    assert len(re.findall("^0 lost, 0 false records, ", out, re.MULTILINE)) == 2, out
    assert len(AUDITED.findall(out)) == 2, out
