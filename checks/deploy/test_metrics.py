"""The metrics in docs/operating.md and in the dashboards are those that the two programs export."""

from __future__ import annotations

import json
import re
from pathlib import Path

import pytest
from conform.small_broker import SmallBroker
from deploy.metrics import Metrics, asked, exported, failing, is_chosen, listed, queries, unknown
from deploy.programs import OF_BROKER, PROVISION, ask, environment, order, running, serve
from docs.pages import TOP, read
from ports import free_address
from waiting import until

DASHBOARDS = TOP / "deploy" / "grafana"
URL = "/v2/service_instances/one"

pytestmark = pytest.mark.slow


@pytest.fixture(scope="module")
def of_broker(broker: Path, tmp_path_factory: pytest.TempPathFactory) -> Metrics:
    """What a broker exports once an asynchronous creation has failed."""
    folder = tmp_path_factory.mktemp("broker")
    program, catalogue = failing(folder)
    at, health = free_address(), f"http://{free_address()}"
    sold = ["--state", str(folder / "state"), "--catalog", str(catalogue), "--backend", f"command:{program}"]
    with running(*serve(broker, at, health, *sold), health=health, environment=OF_BROKER):
        ask("PUT", f"http://{at}{URL}?accepts_incomplete=true", PROVISION)
        until(lambda: b"failed" in ask("GET", f"http://{at}{URL}/last_operation"))
        until(lambda: "osb_broker_operations_total" in exported(health))
        return exported(health)


@pytest.fixture(scope="module")
def of_platform(platform: Path, tmp_path_factory: pytest.TempPathFactory) -> Metrics:
    """What a worker exports once a broker isn't reached, another has failed once, and an orphan was found."""
    folder = tmp_path_factory.mktemp("platform")
    health = f"http://{free_address()}"
    with SmallBroker(deletions=(500, 200, 200)).running() as foreign:
        order(platform, folder, "key", "--to", str(folder / "key"))
        order(platform, folder, "broker", "add", "away", f"http://{free_address()}", "--store-password")
        order(platform, folder, *f"broker add foreign {foreign.url} --store-password --hold 1 --first-pace 0.2".split())
        run = [str(platform), "run", "--seconds", "1", "--health-listen", health.partition("//")[2]]
        with running(*run, health=health, environment=environment(folder)):
            order(platform, folder, "create", "--broker", "foreign", "--id", "one", "--wait=30")
            order(platform, folder, "remove", "one", "--wait=30")
            until(lambda: "osb_platform_orphans_total" in exported(health))
            return exported(health)


@pytest.fixture(params=["osb-broker", "osb-platform"])
def program(request: pytest.FixtureRequest) -> str:
    return str(request.param)


@pytest.fixture
def metrics(program: str, request: pytest.FixtureRequest) -> Metrics:
    """What the program exports."""
    found: Metrics = request.getfixturevalue(program.replace("osb-", "of_"))
    assert len(found) > 15
    return found


def test_page(program: str, metrics: Metrics) -> None:
    """The page lists each metric of the program with its labels, and no other."""
    assert listed(program) == metrics


def dashboard(program: str) -> str:
    return (DASHBOARDS / f"{program}.json").read_text(encoding="utf-8")


def test_dashboard(program: str, metrics: Metrics) -> None:
    """Its queries use only metrics and labels that the program exports, and all of the program's own metrics."""
    found = queries(dashboard(program))
    assert [query for query in found if unknown(query, metrics) or not is_chosen(query)] == []
    own = {metric for metric in metrics if metric.startswith("osb_")}
    assert own - {name for query in found for name in asked(query, metrics)} == set()
    named = set(re.findall(r"\bosb_\w+", dashboard(program)))
    assert {re.sub("_(bucket|sum|count)$", "", name) for name in named} <= own
    assert f"../deploy/grafana/{program}.json" in read("docs/operating.md")


@pytest.mark.parametrize(
    "query, wrong",
    [
        ("sum(rate(osb_broker_request_total{}[5m]))", {"osb_broker_request_total"}),
        ('osb_broker_requests_total{statuz="401"}', {"statuz"}),
        ("sum by (kind) (osb_broker_requests_total{})", {"kind"}),
        ("sum by (le) (rate(osb_broker_requests_total{}[5m]))", {"le"}),
        ('sum by (le, route) (rate(osb_broker_request_seconds_bucket{job="x", route=~"a"}[5m]))', set()),
    ],
)
def test_wrong_queries_are_found(query: str, wrong: set[str], of_broker: Metrics) -> None:
    assert unknown(query, of_broker) == wrong


def test_each_dashboard_is_tested() -> None:
    assert sorted(path.name for path in DASHBOARDS.iterdir()) == ["osb-broker.json", "osb-platform.json"]
    for file in DASHBOARDS.iterdir():
        found = json.loads(file.read_text(encoding="utf-8"))
        numbers = [panel["id"] for panel in found["panels"]]
        assert len(set(numbers)) == len(numbers) > 10
        assert all(panel["datasource"]["uid"] == "${datasource}" for panel in found["panels"])
        places = [(panel["gridPos"]["x"], panel["gridPos"]["y"]) for panel in found["panels"]]
        assert places == [(at % 3 * 8, at // 3 * 8) for at in range(len(places))]
        assert found["uid"] == found["title"] == file.stem
