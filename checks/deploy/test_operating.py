"""The first look of docs/operating.md, as it stands there, over two programs of which one has something to report."""

from __future__ import annotations

import re
from pathlib import Path

import pytest
from commands import needs, ran
from deploy.metrics import exported
from deploy.programs import OF_BROKER, environment, order, running, serve
from docs.pages import TOP, block
from ports import free_address
from waiting import until

PAGE = "docs/operating.md"

pytestmark = pytest.mark.slow


def commands(logs: Path, broker: str, platform: str) -> str:
    """Both blocks, with these addresses of --health-listen, and the logs in a folder."""
    given = block(PAGE, "broker=http://127.0.0.1:9090")
    first, count = re.subn(r"^log\(\) .*$", f'log() {{ cat {logs}/"$1"; }}', given, flags=re.MULTILINE)
    assert count == 1
    for there, ours in (("http://127.0.0.1:9090", broker), ("http://127.0.0.1:9091", platform)):
        assert there in first
        first = first.replace(there, ours)
    return first + block(PAGE, "curl -s -o /dev/null -w '%{http_code}\\n' $broker/readyz\n")


def test_first_look(broker: Path, platform: Path, tmp_path: Path) -> None:
    needs("curl", "jq")
    order(platform, tmp_path, "key", "--to", str(tmp_path / "key"))
    order(platform, tmp_path, "broker", "add", "away", f"http://{free_address()}", "--store-password")
    of_broker, of_platform = f"http://{free_address()}", f"http://{free_address()}"
    served = serve(broker, free_address(), of_broker, "--state", str(tmp_path / "state"))
    run = [str(platform), "run", "--health-listen", of_platform.partition("//")[2]]
    with running(*served, health=of_broker, environment=OF_BROKER, log=tmp_path / "osb-broker"):
        with running(*run, health=of_platform, environment=environment(tmp_path), log=tmp_path / "osb-platform"):
            until(lambda: "osb_platform_failures_total" in exported(of_platform))
            given = {**environment(tmp_path), "OSB_PLATFORM": str(platform)}
            ended = ran(["bash", "-c", commands(tmp_path, of_broker, of_platform)], TOP, given)
    assert ended.stderr == ""
    lines = ended.stdout.splitlines()
    assert lines[:2] == ["200", "200"]
    assert {"osb_broker_store_up 1", "osb_broker_pending 0", "osb_platform_store_up 1"} <= set(lines)
    assert 'osb_platform_failures_total{event="broker_unreached"} 1' in lines
    events = [line.split("\t") for line in lines if "\tbroker_unreached\t" in line]
    assert len(events) == 1 and "connection refused" in events[0][3]
    assert [line for line in lines if line.startswith("away\thttp://")] != []
