"""The commands of the platform's guide, run as they stand there, but for ports; and what the guide lists."""
from __future__ import annotations

import json
import re

import pytest
from commands import needs
from docs.guides import PLATFORM, healthy, moved
from docs.pages import block, covers, packages, read
from docs.programs import commands_of, help_of, options_of
from docs.workdir import Workdir, wait_for

BROKER = "OSB_BROKER_PASSWORD=secret ./osb-broker serve --state build/broker\n"
KEY = "state=${XDG_STATE_HOME:-$HOME/.local/state}/osb-platform\n"
ADD = "OSB_PLATFORM_PASSWORD=secret ./osb-platform broker add local "
RUN = "./osb-platform run\n"
LIFE = "./osb-platform create --id web-db "
SET = "OSB_PLATFORM_PASSWORD=secret ./osb-platform broker set local "

pytestmark = [pytest.mark.slow, pytest.mark.usefixtures("broker", "platform")]


@pytest.fixture(autouse=True)
def curl() -> None:
    """All of them need curl: it waits for the broker."""
    needs("curl")


def begun(port: int) -> str:
    """The commands of the page by which a broker serves and is added, with a key."""
    serve, key, add = (moved(block(PLATFORM, name), port) for name in (BROKER, KEY, ADD))
    return f"{serve.strip()} &\n{healthy(port)}{key}{add}"


def started(command: str) -> str:
    """The command, in the background. $worker is its process. What it prints is kept apart."""
    return f"{command.strip()} >printed 2>log &\nworker=$!\n"


STOP = "kill $worker; wait $worker\n"


def cells(out: str, count: int) -> list[list[str]]:
    """The lines with so many columns."""
    lines = [line.split("\t") for line in out.splitlines()]
    return [line for line in lines if len(line) == count]


@covers(PLATFORM, "apt-get install golang-go ")
def test_packages(texts: list[str]) -> None:
    """They are those that the launcher asks for."""
    assert packages(texts[0]) == packages(read("scripts/go_program.sh"))


@covers(PLATFORM, RUN, LIFE)
def test_first_steps(texts: list[str], workdir: Workdir, port: int) -> None:
    """An instance and a binding are created, seen, and deleted. A second call leaves the key as it is."""
    run, life = texts
    again = f"cp $state/key before\n{{\n{block(PLATFORM, KEY)}}} || echo kept\ncmp before $state/key\n"
    out = workdir.run(f"{begun(port)}{again}{started(run)}{life}ls build/broker/instances\n{STOP}")
    shown, _, of_life = out.partition("\nkept\n")
    assert "plan\tfolder\tat-once\t" in shown
    instance, binding, *listed, credentials = of_life.splitlines()  # and no instance is left
    app = "web-db/web-app"
    assert [instance, binding] == ["web-db", app]
    assert sorted(row.split("\t")[:2] for row in listed) == [["web-db", "ready"], [app, "ready"]]
    printed = json.loads(credentials)
    assert set(printed) == {"credentials"} and set(printed["credentials"]) == {"folder", "token"}
    reported = re.findall(r"^(?:ordered )?web-db.*", workdir.errors(), re.MULTILINE)
    assert reported == ["ordered web-db", f"ordered {app}", f"{app} is gone", "web-db is gone"]


@covers(
    PLATFORM,
    "one=$(./osb-platform create ",
    "app=$(./osb-platform bind ",
    "./osb-platform ask $one\n",
    "./osb-platform list --state gone --reasons\n",
)
def test_look(texts: list[str], workdir: Workdir, port: int) -> None:
    """An instance under an id that was made up is bound, seen at the broker, and by its reasons."""
    create, bind, look, reasons = (moved(text, port) for text in texts)
    out = workdir.run(
        f"{begun(port)}{started(block(PLATFORM, RUN))}{create}echo one $one\n{bind}{look}"
        f"./osb-platform unbind $app --wait\n./osb-platform remove $one --wait\n{look}{reasons}{STOP}"
    )
    assert '"credentials":' in out
    found = re.search(r"^one (\S{36})$", out, re.MULTILINE)
    assert found is not None
    answers = [line.removeprefix("last operation ") for line in out.splitlines() if line.startswith("last operation s")]
    assert answers == ["status\t200", "state\tsucceeded", "status\t410"]
    assert [row[6].split()[:2] for row in cells(out, 7)] in ([["poll", "200"]], [["poll", "410"]])
    assert f"id\t{found[1]}\nstate\tgone\n" in out and "\nwas\t" in out


@covers(PLATFORM, "./osb-platform broker add shop ")
def test_brokers(texts: list[str], workdir: Workdir, port: int) -> None:
    """A broker with a file for its password is added, changed and listed."""
    there = texts[0].replace("https://broker.example/postgres", f"http://127.0.0.1:{port}")
    out = workdir.run(
        f"{moved(block(PLATFORM, BROKER), port).strip()} &\n{healthy(port)}(umask 077; echo secret >password)\n{there}"
        "./osb-platform broker show shop\n./osb-platform broker drop shop\n"
    )
    assert [row[0] for row in cells(out, 5)] == ["shop"]
    assert "hold\t900\n" in out and "longest poll\tdefault\n" in out and "plan\tfolder\t" in out
    assert workdir.errors().count("osb-platform") == 0


@covers(PLATFORM, SET)
def test_rejected_password(texts: list[str], workdir: Workdir, port: int) -> None:
    """An order waits for the right password, and isn't lost."""
    wrong = texts[0].replace("=secret", "=wrong")
    out = workdir.run(
        f"{begun(port)}{wrong}{started(block(PLATFORM, RUN))}"
        "./osb-platform create --id web-db --service folder --plan at-once --wait=2 || echo status $?\n"
        f"./osb-platform broker list\n{texts[0]}"
        f"until ./osb-platform list --state ready | grep web-db; do sleep 0.1; done\n{STOP}"
    )
    assert "web-db\nstatus 4\n" in out
    assert "osb-platform: web-db is still ordered: the broker local rejects the user or the " in workdir.errors()
    assert cells(out, 5)[0][4].startswith("the broker local rejects the user or the password (401)")


@covers(PLATFORM, "OSB_PLATFORM_PASSWORD=secret ./osb-platform run --broker ")
def test_store_of_one_broker(texts: list[str], workdir: Workdir, port: int) -> None:
    serve, run = moved(block(PLATFORM, BROKER), port), moved(texts[0], port)
    create = "./osb-platform create --id web-db --service folder --plan at-once"
    out = workdir.run(
        f"{serve.strip()} &\n{healthy(port)}{started(run)}until {create} --wait; do sleep 0.1; done\n"
        f"./osb-platform broker list\n{STOP}"
    )
    assert "web-db" in out.splitlines() and cells(out, 5)[0][0] == "default"


@covers(PLATFORM, "./osb-platform create --broker local --id web-store ", "./osb-platform key --to new-key\n")
def test_credentials(texts: list[str], workdir: Workdir, port: int) -> None:
    """They are written to a file that only its owner reads, and are the same after the key was replaced."""
    bind, rekey = texts
    out = workdir.run(
        f"{begun(port)}{started(block(PLATFORM, RUN))}{bind}stat -c %a credentials.json\n"
        f"{STOP}{rekey}./osb-platform credentials web-store/web-app | cmp - credentials.json && echo same\n"
    )
    assert "\n600\n" in out and out.endswith("\nsame\n")


@covers(
    PLATFORM,
    "token=$(openssl rand -hex 32)\n",
    'curl -H "Authorization: Bearer $token" ',
    'curl -G -H "Authorization: Bearer $token" ',
)
def test_api_and_page(texts: list[str], workdir: Workdir, port: int, other_port: int, third_port: int) -> None:
    """The API writes an order down and lists it, and the page shows it to its user alone."""
    needs("openssl")
    given, ask, listed = (moved(text, port, other_port).replace(":8092", f":{third_port}") for text in texts)
    secrets, program, options = given.partition("./osb-platform serve")
    page = f"http://127.0.0.1:{other_port}/"
    out = workdir.run(
        f"{begun(port)}{secrets}{started(program + options)}{wait_for(third_port)}"
        f"{(ask + listed).replace('curl ', 'curl -si ')}"
        f'curl -si {page}\ncurl -si -u "$(cat build/users)" {page}\n{STOP}'
    )
    statuses = re.findall(r"^HTTP/1.1 (\d+)", out, re.MULTILINE)
    assert statuses == ["200", "201", "200", "200", "200", "401", "200"]
    assert '"life":[{"state":"ordered","since":"' in out and '"state":"ordered","count":1' in out
    assert '"state":"ordered"' in out and "<title>1 instance - osb-platform</title>" in out


# ---- what the guide lists


def test_commands() -> None:
    """The table has each command, and no other."""
    rows = re.findall(r"^\| (`[a-z].*?) \| ", read(PLATFORM).partition("\n### The exit status")[0], re.MULTILINE)
    named = {word for row in rows for word in re.findall(r"`([a-z]+)", row)}
    assert named == set(commands_of("osb-platform")) - {"help"}
    inner = set(re.findall(r"`(broker [a-z]+)`", read(PLATFORM).partition("\n### The exit status")[0]))
    assert inner == {f"broker {command}" for command in commands_of("osb-platform", "broker")}


def test_options() -> None:
    """The tables have each option of each command, and no other."""
    general = set(options_of(help_of("osb-platform"))) - {"--help", "--version"}
    program = {("all", option) for option in general}
    names = [[command] for command in commands_of("osb-platform") if command != "help"]
    for name in [*names, *(["broker", command] for command in commands_of("osb-platform", "broker"))]:
        own = help_of("osb-platform", *name).partition("\nGlobal Flags:")[0]
        program |= {(" ".join(name), option) for option in options_of(own) if option != "--help"}
    guide = {
        (command, option)
        for options, commands in re.findall(r"^\| (`--.*?) \| (all|`[a-z].*?`) \| ", read(PLATFORM), re.MULTILINE)
        for command in (re.findall(r"`(.*?)`", commands) or ["all"])
        for option in re.findall(r"`(--[a-z-]+)", options)
    }
    assert len(program) > 60
    assert sorted(guide - program) == [] and sorted(program - guide) == []


def test_named_options() -> None:
    """Each option that the guide names in its text is one of the program's."""
    names = [(), *((command,) for command in commands_of("osb-platform")), ("broker", "add"), ("broker", "set")]
    options = {option for name in names for option in options_of(help_of("osb-platform", *name))}
    front, _, rest = read(PLATFORM).partition("\n## From version 0.2\n")
    text = front + rest.partition("\n## ")[2].partition("\n## The storm\n")[0]
    named = set(re.findall(r"(?<![\w-])--[a-z][a-z-]*", text))
    assert len(named) > 50 and sorted(named - options) == []


def test_states() -> None:
    """The table has each state, in the order of the program's help."""
    listed = re.search(r"only those in this state: (.*?)\n +--", help_of("osb-platform", "list"), re.DOTALL)
    assert listed is not None
    table = read(PLATFORM).partition("\n## The states")[2].partition("\n### ")[0]
    assert set(re.findall(r"^\| `([a-z-]+)` \|", table, re.MULTILINE)) == set(re.split(r",\s+", listed[1]))


def test_columns() -> None:
    """The table has each column of the list, in its order."""
    listed = re.search(r"The columns are (.*)\.\n", help_of("osb-platform", "list"))
    assert listed is not None
    table = read(PLATFORM).partition("\n| column | what it is |\n|---|---|\n")[2].partition("\n\n")[0]
    rows = re.findall(r"^\| `([a-z]+)` \|", table, re.MULTILINE)
    assert len(rows) > 5 and rows == re.split(", (?:and with --reasons )?", listed[1])


def test_variables() -> None:
    """The table has each variable of the program, and no other."""
    table = read(PLATFORM).partition("\n| variable | what it is |\n|---|---|\n")[2].partition("\n\n")[0]
    program = set(re.findall(r"^  (OSB_[A-Z_]+) ", help_of("osb-platform"), re.MULTILINE))
    assert len(program) > 2 and set(re.findall(r"^\| `([A-Z_]+)` \|", table, re.MULTILINE)) == program


def test_routes() -> None:
    """The table has each route of the API's description, and no other."""
    described = json.loads(read("go/platform/api/openapi.json"))["paths"]
    verbs = ("get", "post", "put", "delete")
    program = {(verb.upper(), path) for path, verbs_of in described.items() for verb in verbs_of if verb in verbs}
    rows = re.findall(r"^\| ([A-Z, ]+) \| (`/v1.*?`) \| ", read(PLATFORM), re.MULTILINE)
    guide = {
        (verb, path) for verbs, paths in rows for verb in verbs.split(", ") for path in re.findall("`(.*?)`", paths)
    }
    assert len(program) > 15 and guide == program


def test_queries_of_lists() -> None:
    """The table has each name that the query of a list may have, and no other."""
    described = json.loads(read("go/platform/api/openapi.json"))
    lists = ("/v1/records", "/v1/instances", "/v1/bindings", "/v1/instances/{id}/bindings")
    references = [given["$ref"] for path in lists for given in described["paths"][path]["get"]["parameters"]]
    parameters = [described["components"]["parameters"][reference.split("/")[-1]] for reference in references]
    program = {parameter["name"] for parameter in parameters if parameter["in"] == "query"}
    table = read(PLATFORM).partition("\n| query | which rows |\n|---|---|\n")[2].partition("\n\n")[0]
    named = [name for row in table.splitlines() for name in re.findall(r"`([a-z]+)=", row.split(" | ")[0])]
    assert len(program) > 10 and sorted(named) == sorted(program)
