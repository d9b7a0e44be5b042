"""The package for Debian in a fresh Debian, without the repository: installed, run by systemd, updated and purged."""

from __future__ import annotations

import contextlib
import json
import re
import shutil
import subprocess
from pathlib import Path
from textwrap import indent
from typing import Iterator

import pytest
import waiting
from docs.pages import TOP, block, blocks, read

from release import old_state
from release.fresh import Fresh, fresh

pytestmark = pytest.mark.slow

PAGE = "docs/install.md"
SECRETS = ("sudo sh -c 'umask 077; ", "sudo osb-platform key ")
"""The beginnings of the page's blocks that write a secret, and start the service that has it."""
BY_HAND = "mkdir -p -m 700 /var/lib/osb-broker "
"""The beginning of the page's block that starts both programs without systemd."""
FIRST_INSTANCE = ("export OSB_PLATFORM_STORE=", "osb-platform bind first ")
"""The beginnings of the page's blocks that create an instance and a binding, and delete both."""
INSTALL = "apt-get install -y -qq --no-install-recommends"
OLDER = "0.2.99"
"""A version from which the package is updated."""
STATE = re.compile(r"/var/lib/(private/)?osb-(broker|platform)(/|$)|/etc/osb(/platform-key)?$|/var/lib/private$")
"""What a purge leaves: the state, and the key without which nobody can read it."""
PLACES = ("/etc", "/lib/systemd", "/opt", "/srv", "/usr", "/var/lib", "/var/cache", "/var/spool", "/home")
NOT_OURS = re.compile(
    r"/var/lib/(apt|dpkg|systemd/(catalog|coredump|linger|pstore|random-seed|timers|timesync))(/|$)"
    r"|/var/cache/(apt|ldconfig|debconf|private)(/|$)|/etc/(machine-id|mtab|ld\.so\.cache|resolv\.conf|\.pwd\.lock)$"
    r"|__pycache__"
)
"""What apt, dpkg and systemd write for themselves."""


def older(package: Path, folder: Path) -> Path:
    """The same package as another version."""
    unpacked = folder / "older"
    subprocess.run(["dpkg-deb", "-R", package, unpacked], check=True)
    control = unpacked / "DEBIAN" / "control"
    control.write_text(re.sub("(?m)^Version: .*$", f"Version: {OLDER}", control.read_text()))
    made = folder / f"osb_{OLDER}_amd64.deb"
    subprocess.run(["dpkg-deb", "--root-owner-group", "-Znone", "-b", unpacked, made], check=True, capture_output=True)
    shutil.rmtree(unpacked)
    return made


def files(debian: Fresh) -> set[str]:
    """What is in it, but for what its own programs write."""
    found = debian.run(f"find {' '.join(PLACES)} -xdev").splitlines()
    return {line for line in found if not NOT_OURS.search(line)}


@pytest.fixture
def debian(tmp_path: Path) -> Iterator[Fresh]:
    """A fresh Debian, with what README's commands and the package need."""
    yield fresh(tmp_path / "debian", "curl", "python3", "systemd-sysv")
    shutil.rmtree(tmp_path / "debian")


@pytest.mark.long(170)
def test_package(dist: Path, version: str, debian: Fresh, tmp_path: Path) -> None:
    before = files(debian)
    old = debian.put(older(dist / f"osb_{version}_amd64.deb", tmp_path), f"osb_{OLDER}_amd64.deb")
    new = debian.put(dist / f"osb_{version}_amd64.deb", f"osb_{version}_amd64.deb")
    debian.run(f"{INSTALL} {old}", network=True)
    assert debian.run("dpkg-query -W -f '${Version}' osb") == OLDER
    check_units(debian)
    check_readme(debian)
    check_replay(debian)
    check_audit(debian)
    check_storm(debian)
    check_command_lines(debian)
    check_without_systemd(debian)
    with debian.booted():
        instance = check_services(debian)
        update(debian, new, version, instance)
        purge(debian)
        update_from_02(debian, new)
        purge(debian)
    after = files(debian)
    left = sorted(path for path in after - before if not STATE.search(path))
    assert left == []
    assert before - after == set()
    for state in ("/osb-broker/holdings.sqlite", "/osb-broker/instances", "/osb-platform/instances.sqlite"):
        assert f"/var/lib/private{state}" in after


def check_units(debian: Fresh) -> None:
    """systemd understands them, and finds their programs."""
    assert debian.run("systemd-analyze verify --man=no /lib/systemd/system/osb-*.service 2>&1") == ""


def check_readme(debian: Fresh) -> None:
    """The first commands of README create an instance and delete it. The journals are as the model says."""
    commands = block("README.md", "OSB_BROKER_PASSWORD=secret ./osb-broker serve &\n").replace("./osb-", "osb-")
    assert "osb-platform create" in commands
    quiet = commands.replace("serve &", "serve --journal journals/ 2>/dev/null &").replace(
        "platform run &", "platform run --journal journals/ >/dev/null 2>&1 &"
    )
    audit = "kill %2 %1; wait; echo; osb-audit journals"
    out = debian.run(f"{LOOPBACK}\ncd /tmp\n{quiet}\nls ~/.local/state/osb-broker/instances\n{audit}")
    first, _, audited = out.partition("\nSeen besides:\n")  # the Poll by curl
    assert first == 'my-db\n{"state":"succeeded"}' and audited.endswith("\n1 instance, 14 events, 0 differences\n")
    # A state folder of root becomes that of the service, as docs/install.md says.
    debian.run("mv ~/.local/state/osb-broker /var/lib/osb-broker; rm -r ~/.local")


LOOPBACK = """/usr/bin/python3 -c '
import fcntl, socket, struct
with socket.socket() as it:
    fcntl.ioctl(it, 0x8914, struct.pack("16sh14x", b"lo", 1))'"""
"""Brings the loopback of a new network up: SIOCSIFFLAGS with IFF_UP."""


def check_replay(debian: Fresh) -> None:
    """Both programs replay, the one in Python also from another folder with a module of the same name."""
    plan, service, instance = (f"00000000-0000-0000-0000-00000000000{number}" for number in (1, 2, 3))
    lines = (
        f"plan {service} {plan} sync",
        f"create {instance} {service} {plan} no",
        f"deliver {instance} done",
        f"answer {instance}",
    )
    events = "".join(f"{line}\\n" for line in lines)
    wanted = f"{instance} ready ready\napplied 3\nskipped 0\n"
    write = f"cd /tmp && printf '{events}' >log && mkdir -p osb_replay_log"
    assert debian.run(f"{write} && osb-replay replay <log") == wanted
    assert debian.run(f"{write} && osb-replay-log replay --engine processes --workers 2 log") == wanted


def check_audit(debian: Fresh) -> None:
    """osb-audit reports of the example what docs/audit.md shows."""
    shutil.copytree(TOP / "examples" / "journals", debian.top / "packages" / "examples" / "journals")
    command, _, report = block("docs/audit.md", "$ ./osb-audit examples/journals\n").partition("\n")
    ran = command.replace("$ ./", "cd /packages && mkdir -p osb_audit osb && ")
    assert debian.run(f"{ran} || echo $?") == f"{report}1\n"


def check_storm(debian: Fresh) -> None:
    """The installed osb-broker satisfies each MUST that osb-storm asks of any broker."""
    printed = debian.run(
        f"""{LOOPBACK}
        cd /tmp
        export OSB_BROKER_PASSWORD=secret
        osb-broker serve --state state 2>/dev/null &
        until curl -s http://127.0.0.1:8080/healthz >/dev/null; do sleep 0.1; done
        osb-storm conform --url http://127.0.0.1:8080
        kill %1; wait"""
    )
    assert re.search(r"^MUST: [4-9]\d passed, 0 failed, ", printed, re.MULTILINE), printed


def check_command_lines(debian: Fresh) -> None:
    """Also if systemd doesn't run: both services start by the command lines of their units, with the environment and
    the secrets that systemd would give them. An instance is created and deleted, and SIGTERM ends both with status 0.
    """
    printed = debian.run(
        f"""{LOOPBACK}
        cd /tmp
        umask 077
        mkdir -p state/osb-broker state/osb-platform credentials
        echo secret >credentials/password
        osb-platform key --to credentials/key
        export CREDENTIALS_DIRECTORY=/tmp/credentials
        ({command_line(debian, "osb-broker")}) 2>broker.log & broker=$!
        ({command_line(debian, "osb-platform")}) >platform.log 2>&1 & platform=$!
        trap 'tail -n 20 broker.log platform.log >&2' ERR
        export OSB_PLATFORM_STORE=/tmp/state/osb-platform/instances.sqlite
        export OSB_PLATFORM_KEY_FILE=/tmp/credentials/key
        for try in {{1..300}}; do
            if curl -s http://127.0.0.1:8080/healthz && [ -e $OSB_PLATFORM_STORE ]; then break; fi >/dev/null
            sleep 0.1
        done
        OSB_PLATFORM_PASSWORD=secret osb-platform broker add local http://127.0.0.1:8080 --store-password
        timeout 60 osb-platform create --id first --service folder --plan at-once --wait
        ls state/osb-broker/instances | wc -l
        timeout 60 osb-platform remove first --wait >/dev/null
        ls state/osb-broker/instances | wc -l
        kill $broker $platform
        wait $broker
        wait $platform"""
    )
    assert printed.splitlines() == ["first", "1", "0"]


def check_without_systemd(debian: Fresh) -> None:
    """By the page's commands, both programs start by hand, and the first instance is created and deleted. The state is
    below /tmp here: /var/lib has that of the services.
    """
    starts, *uses = (commands(beginning).replace("/var/", "/tmp/var/") for beginning in (BY_HAND, *FIRST_INSTANCE))
    printed = debian.run(
        f"""{LOOPBACK}
        mkdir -p /tmp/var/log /tmp/var/lib
        {starts}
        trap 'tail -n 20 /tmp/var/log/*.log >&2' ERR
        for try in {{1..300}}; do
            if curl -s http://127.0.0.1:8080/healthz && ls /tmp/var/lib/osb-platform/*.sqlite; then break; fi
            sleep 0.1
        done >/dev/null 2>&1
        {"".join(uses)}
        kill %1 %2
        wait
        rm -r /tmp/var /etc/osb/*"""
    )
    assert_first_instance(printed)


def assert_first_instance(printed: str) -> None:
    """What the commands of FIRST_INSTANCE print."""
    instance, binding, credentials, *listed = printed.splitlines()
    assert (instance, binding) == ("first", "first/app") and json.loads(credentials)
    assert [row.split("\t")[:2] for row in listed] == [["first", "ready"], ["first/app", "ready"]]


def command_line(debian: Fresh, name: str) -> str:
    """What systemd would run for a service whose state is in /tmp/state."""
    unit = (debian.top / "lib/systemd/system" / f"{name}.service").read_text().replace("%S", "/tmp/state")
    (line,) = re.findall("^ExecStart=(.*)$", unit, re.MULTILINE)
    (options,) = re.findall("^EnvironmentFile=-(.*)$", unit, re.MULTILINE)
    variables = " ".join(re.findall("^Environment=(.*)$", unit, re.MULTILINE))
    assert variables and "/tmp/state" in variables
    return f"set -a; {variables}; . {options}; exec {line}"


def client(command: str) -> str:
    """A command of the platform, over the store of its service."""
    store, key = "/var/lib/osb-platform/instances.sqlite", "/etc/osb/platform-key"
    return f"OSB_PLATFORM_STORE={store} OSB_PLATFORM_KEY_FILE={key} timeout 30 osb-platform {command}"


def check_services(debian: Fresh) -> str:
    """By the commands of docs/install.md, both services start as accounts of their own. Returns the id of an instance
    that they have created.
    """
    failed = debian.run("systemctl start osb-broker 2>&1 || systemctl show -p AssertResult osb-broker")
    assert failed.splitlines()[-1] == "AssertResult=no"
    for beginning in SECRETS:
        start(debian, commands(beginning))
    for unit in ("osb-broker", "osb-platform"):
        about = properties(debian, unit)
        assert (about["ActiveState"], about["SubState"], about["Type"]) == ("active", "running", "notify")
        status = debian.run(f"cat /proc/{about['MainPID']}/status")
        (user,) = re.findall(r"^Uid:\t(\d+)", status, re.MULTILINE)
        assert 61184 <= int(user) <= 65519  # the accounts of DynamicUser
        assert re.search(r"^CapEff:\t0+$", status, re.MULTILINE) and "NoNewPrivs:\t1\nSeccomp:\t2\n" in status
    check_first_instance(debian)
    check_crash(debian)
    debian.run(f"{client('create --id kept --service folder --plan at-once --wait')}\n{client('bind kept --wait')}")
    assert len(instances(debian)) == 1
    reload(debian)
    return "kept"


def check_first_instance(debian: Fresh) -> None:
    """In one shell, the page's first instance and its binding are created and deleted."""
    assert_first_instance(debian.run("".join(commands(beginning) for beginning in FIRST_INSTANCE)))
    assert instances(debian) == set()


def instances(debian: Fresh) -> set[str]:
    """The ids of the instances whose folders the broker has."""
    return set(debian.run("ls /var/lib/osb-broker/instances").split())


def commands(beginning: str) -> str:
    """The commands of a block of docs/install.md, for root."""
    return block(PAGE, beginning).replace("sudo ", "")


def start(debian: Fresh, script: str) -> None:
    """Runs a script that starts services. If one doesn't start, the log is printed."""
    debian.run(f"trap 'journalctl -o cat -n 50' ERR\n{script}")


def check_crash(debian: Fresh) -> None:
    """Go's runtime ends a program with status 2 at SIGABRT. systemd starts it again, and not after a wrong option."""
    for unit in ("osb-broker", "osb-platform"):
        debian.run(f"systemctl kill -s ABRT {unit}")
        waits(debian, unit, NRestarts="1", ActiveState="active")
        options = f"/etc/default/{unit}"
        variable = f"{unit.upper().replace('-', '_')}_OPTIONS"
        debian.run(f"cp {options} /tmp/options && echo {variable}=--no-such-option >>{options}")
        debian.run(f"! systemctl restart {unit} 2>/dev/null")
        waits(debian, unit, ExecMainStatus="78", ActiveState="failed")
        debian.run(f"mv /tmp/options {options} && systemctl restart {unit}")


def waits(debian: Fresh, unit: str, **wanted: str) -> None:
    """Waits until the properties of a unit are these."""
    waiting.until(
        lambda: {key: debian.run(f"systemctl show -P {key} {unit}").strip() for key in wanted} == wanted, seconds=120
    )


def reload(debian: Fresh) -> None:
    """`systemctl reload` sends SIGHUP. The credential is a copy, so a new password needs a restart."""
    debian.run("systemctl reload osb-broker osb-platform")
    assert properties(debian, "osb-broker")["ActiveState"] == "active"
    assert "users_reloaded" in debian.run("journalctl -u osb-broker -o cat")


def properties(debian: Fresh, unit: str) -> dict[str, str]:
    shown = debian.run(f"systemctl show {unit} -p ActiveState,SubState,Type,MainPID,NRestarts")
    return dict(line.split("=", 1) for line in shown.splitlines())


def update(debian: Fresh, package: str, version: str, instance: str) -> None:
    """Both services are started again over the state that was there, and go on."""
    before = {program: properties(debian, program)["MainPID"] for program in ("osb-broker", "osb-platform")}
    debian.run(f"{INSTALL} {package}")
    assert debian.run("dpkg-query -W -f '${Version}' osb") == version
    for unit, number in before.items():
        about = properties(debian, unit)
        assert about["ActiveState"] == "active" and about["MainPID"] != number
    assert states(debian)[instance] == "ready"
    assert poll(debian, instance) == SUCCEEDED


SUCCEEDED = '{"state":"succeeded"}'


def poll(debian: Fresh, instance: str) -> str:
    """What the broker answers about the last operation of an instance."""
    url = f"http://127.0.0.1:8080/v2/service_instances/{instance}/last_operation"
    return debian.run(f"curl -s -u platform:secret -H 'X-Broker-API-Version: 2.17' {url}")


def states(debian: Fresh) -> dict[str, str]:
    """The state of each instance of the platform."""
    return dict(line.split("\t")[:2] for line in debian.run(client("list")).splitlines())


def purge(debian: Fresh) -> None:
    """Both services are stopped."""
    debian.run("apt-get purge -y -qq osb")
    assert debian.run("systemctl list-units --all --no-legend 'osb-*' | grep -v not-found || true") == ""
    assert debian.run("ps -e -o comm= 2>/dev/null | grep osb- || true") == ""
    debian.run("! test -e /etc/osb/broker-password")


def update_from_02(debian: Fresh, package: str) -> None:
    """By the commands of docs/install.md, the services go on with what the programs of version 0.2 have left."""
    debian.run(commands("sudo rm -r /var/lib/osb-broker "))
    debian.run(f"{INSTALL} {package}")
    for beginning in SECRETS:
        debian.run(commands(beginning).splitlines()[0])  # the second line starts a service
    old_state.write(debian.top / "srv/.local/state")
    debian.run("chown -R 1000:1000 ~/.local && chmod -R go= ~/.local")  # the state of a user
    move, start_services, store_password = commands_from_02()
    debian.run(f"{move}\nrmdir ~/.local/state ~/.local")  # nothing else is left there
    start(debian, start_services)
    check_state_of_02(debian)
    debian.run(store_password)
    check_convergence(debian)


def commands_from_02() -> list[str]:
    """The blocks of docs/install.md, "From version 0.2", for root."""
    section = read(PAGE).partition("### From version 0.2\n")[2].partition("## ")[0]
    found = [text for text in blocks(PAGE) if f"\n\n{indent(text, '    ')}\n" in section]
    return [text.replace("sudo ", "") for text in found]


def check_state_of_02(debian: Fresh) -> None:
    """While the platform has no password, both programs have the instances that version 0.2 had."""
    assert sorted(debian.run(f"{client('list')} | cut -f 1-5").splitlines()) == old_state.LISTED
    for instance in (old_state.AT_ONCE, old_state.LATER):
        assert poll(debian, instance) == SUCCEEDED
    assert instances(debian) == {old_state.AT_ONCE, old_state.LATER}


def check_convergence(debian: Fresh) -> None:
    """The pending deletion and the pending creation succeed, and so does one more deletion."""
    wanted = {id: "gone" for id in (old_state.AT_ONCE, old_state.GONE)}
    wanted |= {id: "ready" for id in (old_state.LATER, old_state.ORDERED)}
    with contextlib.suppress(AssertionError):
        waiting.until(lambda: states(debian) == wanted)
    assert states(debian) == wanted, debian.run("journalctl -o cat -n 50")
    assert instances(debian) == {old_state.LATER, old_state.ORDERED}
    for instance in (old_state.LATER, old_state.ORDERED):
        assert poll(debian, instance) == SUCCEEDED
    debian.run(client(f"remove {old_state.LATER} --wait"))
    assert states(debian) == {**wanted, old_state.LATER: "gone"}
    assert instances(debian) == {old_state.ORDERED}
