"""The commands of the broker's guide, run as they stand there, but for ports; and the arguments in all documents."""
from __future__ import annotations

import json
import re
import shlex
from functools import partial
from typing import Callable

import osb_audit.words
import pytest
from commands import needs
from docs.guides import BROKER, CREATE, healthy, moved, statuses
from docs.pages import blocks, covers, packages, pages, read
from docs.programs import help_of, is_read_by, options_of
from docs.workdir import Workdir
from osb import Id

FIRST = str(Id.of_text("my-first"))

pytestmark = [pytest.mark.slow, pytest.mark.usefixtures("broker")]


@pytest.fixture(autouse=True)
def curl() -> None:
    """All of them need curl."""
    needs("curl")


@covers(BROKER, "apt-get install curl ")
def test_packages(texts: list[str]) -> None:
    """They are those that the launcher asks for, and curl."""
    assert packages(texts[0]) == packages(read("scripts/go_program.sh")) | {"curl"}


def test_first_start(workdir: Workdir) -> None:
    """It builds the program, which the second start runs. Both print what they were asked for, and nothing else."""
    given = {"OSB_BROKER": "", "GOFLAGS": ""}
    assert re.fullmatch(r"[\w-]{43}\n", workdir.run("./osb-broker key", **given))
    assert workdir.errors().startswith("osb-broker: building the program ") and workdir.errors().count("\n") == 1
    assert re.fullmatch(r"[\w-]{43}\n", workdir.run("./osb-broker key", **given))
    assert workdir.errors() == ""


@covers(
    BROKER,
    "OSB_BROKER_PASSWORD=secret ./osb-broker serve --state build/broker\n",
    CREATE,
    "two=http:",
    'ask -X DELETE "$two?',
)
def test_broker(texts: list[str], workdir: Workdir, port: int) -> None:
    """An instance of each plan is created and deleted, one of them with a binding. No id is used again."""
    serve, synchronous, before, delete = (moved(text, port) for text in texts)
    poll = "ask $two/last_operation"
    before, delete = (text.removesuffix(f"{poll}\n") for text in (before, delete))
    life = (
        f"{before}until {poll} | grep succeeded; do sleep 0.1; done\n{delete}"
        f"until {poll} | grep -q ' 410 '; do sleep 0.1; done\n{before}"
    )
    out = workdir.run(f"{serve.strip()} &\n{healthy(port)}{synchronous}echo --\n{life}kill %1; wait $!\n")
    first, _, second = out.partition("--\n")
    assert statuses(first) == ["201", "201", "200", "200"]
    assert first.count(f"{FIRST}\n") == 1  # what ls lists
    assert '"credentials":' in first
    assert statuses(second) == ["202", "202", "409"]


@covers(
    BROKER,
    "cp examples/broker/databases mine\n",
    "./osb-broker try --backend command:./mine --catalog mine.json\n",
    "OSB_BROKER_PASSWORD=secret ./osb-broker serve --state build/mine ",
    "service=$(jq ",
    'ask -X DELETE "$one/service_bindings/',
)
def test_backend_of_a_reader(texts: list[str], workdir: Workdir, port: int) -> None:
    """The copy of the example has no mistake, and ids of its own. It sells a database, with a binding. Nothing is left
    in the end.
    """
    needs("jq")
    copy, attempt, serve, create, delete = texts
    life = f"{moved(create, port)}ls build/mine/command\n{delete}"
    serving = f"{moved(serve, port).strip()} &\n{healthy(port)}{life}kill %1; wait $!\n"
    out = workdir.run(f"{copy}{attempt}echo --\n{serving}ls build/mine/command\n")
    tried, _, served = out.partition("--\n")
    assert tried.endswith("\n52 ok, 0 failed\n")
    assert "\nok      create-binding 1: credentials: an object with the members database, token\n" in tried
    assert statuses(served) == ["201", "201", "200", "200", "200"]
    assert served.count('"token"') == 2 and served.count(f"\n{FIRST}\n") == 1  # what ls lists
    assert served.endswith("\n{}\n")  # the last ls lists nothing
    ids = re.findall(r'"id": "(\S+)"', (workdir.top / "mine.json").read_text())
    assert len(set(ids)) == 3 and not any(guid.startswith("11111111-") for guid in ids)


@covers(
    BROKER,
    "cp examples/broker/databases mine\n",
    "sed -i '/^umask 077$/r ",
    "./osb-broker try --backend command:./mine --catalog mine.json --update-parameters ",
    "OSB_BROKER_PASSWORD=secret ./osb-broker serve --state build/mine ",
    "service=$(jq ",
    "ask -X PATCH $one ",
    'ask -X DELETE "$one/service_bindings/',
)
def test_updates_of_a_reader(texts: list[str], workdir: Workdir, port: int) -> None:
    """The example with the calls that update has no mistake. Updates change the parameters of its instance, also to
    texts with backslashes.
    """
    needs("jq")
    copy, add, attempt, serve, create, update, delete = texts
    odd = update.replace('"size":20', r'"label":"\n\\\u0007"')
    served = f"{moved(create, port)}echo --\n{update}{odd}echo --\n{delete}"
    out = workdir.run(
        f"{copy}{add}{attempt}echo --\n{moved(serve, port).strip()} &\n{healthy(port)}{served}kill %1; wait $!\n"
    )
    tried, created, updated, deleted = out.split("--\n")
    assert tried.endswith("\n75 ok, 0 failed\n")
    assert "\nok      look-update instance 1: none\n" in tried  # both settings differ
    assert statuses(created) == ["201", "201", "200"]
    assert statuses(updated) == 4 * ["200"]
    assert [json.loads(text) for text in re.findall(r'"parameters":({.*?})', updated)] == [
        {"size": 20},
        {"label": "\n\\\a"},
    ]
    assert statuses(deleted) == ["200", "200"]


# A Bind of an instance that doesn't exist, and one whose body lacks the ids.
BINDS = """\
for ids in '"service_id":"00000000-0000-0000-0000-0000000000a0","plan_id":"00000000-0000-0000-0000-0000000000b1"' ''; do
    curl -s -u platform:secret -X PUT http://127.0.0.1:8080/v2/service_instances/one/service_bindings/two \
        -H 'X-Broker-API-Version: 2.17' -H 'X-Vcap-Request-Id: v' -H 'Traceparent: t' \
        -H "X-Broker-API-Originating-Identity: cloudfoundry $(printf '{}' | base64)" -d "{$ids}"
done
"""


@covers(BROKER, "OSB_BROKER_PASSWORD=secret ./osb-broker serve --state build/broker\n")
def test_log(texts: list[str], workdir: Workdir, port: int) -> None:
    """The guide names the members of the lines about requests."""
    workdir.run(f"{moved(texts[0], port).strip()} &\n{healthy(port)}{moved(BINDS, port)}kill %1; wait $!\n")
    lines = [json.loads(line) for line in workdir.errors().splitlines() if line.startswith("{")]
    found = [set(line) for line in lines if line["event"] == "request" and line["route"] == "bind"]
    assert len(found) == 2
    row = re.search(r"^\| `request` \| one for each request:(.*)$", read(BROKER), re.MULTILINE)
    assert row is not None
    assert set.union(*found) - {"time", "level", "event"} == set(re.findall("`([a-z_]+)`", row[1]))


# ---- arguments of all commands, also of those that aren't run here


READERS: dict[str, Callable[[list[str]], object]] = {
    "./osb-broker": partial(is_read_by, "osb-broker"),
    "./osb-platform": partial(is_read_by, "osb-platform"),
    "./osb-storm": partial(is_read_by, "osb-storm"),
    "./osb-audit": osb_audit.words.read,
}
WORD = r"""(?:'[^']*'|"[^"]*"|[^\s&|;#)>'"])+"""
COMMAND = re.compile(rf"(?:^|[\s(])({'|'.join(map(re.escape, READERS))})((?: +{WORD})+)", re.MULTILINE)


@pytest.mark.usefixtures("platform", "storm")
@pytest.mark.parametrize("page", pages())
def test_arguments(page: str) -> None:
    """The programs take the arguments of every command in the documents."""
    for text in blocks(page):
        for program, words in COMMAND.findall(text.replace("\\\n", " ")):
            given = re.sub(r"\$\w+", FIRST, words).replace("--seed SEED", "--seed=1")
            READERS[program](shlex.split(given))


@pytest.mark.parametrize("arguments", ["serve --pass x", "serve --threads 0", "sell", "serve --listen"])
def test_wrong_arguments_are_found(arguments: str) -> None:
    with pytest.raises(AssertionError):
        is_read_by("osb-broker", arguments.split())


@pytest.mark.usefixtures("platform")
def test_options_of_the_broker() -> None:
    """Each option that the guide names is the broker's, or that of a platform which changes its password, or of jq."""
    options = set(options_of("".join(help_of("osb-broker", command) for command in ("serve", "try", "key", "rekey"))))
    options |= set(options_of(help_of("osb-platform", "broker", "set"))) | {"--argjson"}  # which is jq's
    named = set(re.findall(r"(?<![\w-])--[a-z][a-z-]*", read(BROKER)))
    assert len(named) > 20
    assert named - options == set()
