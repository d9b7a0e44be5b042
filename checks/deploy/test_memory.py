"""How much memory 64 bodies of the largest size take at once: no more than the guides say, and than Kubernetes allows.

The bodies have the shapes that take most while they are parsed: many arrays, many objects, many members. One has
characters that JSON in HTML has six bytes for, each.
"""

from __future__ import annotations

import base64
import collections
import contextlib
import hashlib
import http.client
import subprocess
from collections.abc import Callable
from concurrent.futures import ThreadPoolExecutor
from pathlib import Path

import pytest
from deploy.files import of_kind
from deploy.programs import OF_BROKER, environment, order, running, serve
from ports import free_address

LONGEST, AT_ONCE = 256 << 10, 64
MOST = 300_000_000
"""Of bytes that are resident, at any moment."""

SERVICE, PLAN = "00000000-0000-0000-0000-0000000000a0", "00000000-0000-0000-0000-0000000000b1"

SHAPES: dict[str, Callable[[int], str]] = {
    "arrays": lambda size: '{"a":' + "[" * 50 + ",".join(["[1]"] * ((size - 110) // 4)) + "]" * 50 + "}",
    "objects": lambda size: '{"a":[' + ",".join(["{}"] * ((size - 10) // 3)) + "]}",
    "members": lambda size: "{" + ",".join(f'"{number:05x}":1' for number in range((size - 10) // 10)) + "}",
    "escapes": lambda size: '{"a":"' + "<" * (size - 8) + '"}',
}


def most_resident(pid: int) -> int:
    """The most bytes of a process that were in memory at once."""
    status = Path(f"/proc/{pid}/status").read_text(encoding="utf-8")
    return int(status.partition("VmHWM:")[2].split()[0]) * 1024


def longest(rest: str, shape: str) -> str:
    """A body with parameters of this shape, of the largest size that is taken, or a little less."""
    body = rest.replace("PARAMETERS", SHAPES[shape](LONGEST - len(rest)))
    assert LONGEST - 100 < len(body) <= LONGEST
    return body


def sent(address: str, requests: list[tuple[str, str, str, dict[str, str]]]) -> collections.Counter[int]:
    """How often each status is answered, if all requests are sent at once: method, target, body, headers."""

    def send(request: tuple[str, str, str, dict[str, str]]) -> int:
        with contextlib.closing(http.client.HTTPConnection(address, timeout=300)) as connection:
            connection.request(*request)
            with connection.getresponse() as answer:
                answer.read()
                return answer.status

    with ThreadPoolExecutor(len(requests)) as all_at_once:
        return collections.Counter(all_at_once.map(send, requests))


@pytest.mark.long(10)
@pytest.mark.parametrize("shape", SHAPES)
def test_of_the_broker(broker: Path, tmp_path: Path, shape: str) -> None:
    """Four users send them. None is answered wrongly: what isn't created is answered with 503."""
    users = tmp_path / "users"
    users.write_text("".join(f"user-{number}:secret-of-16-bytes\n" for number in range(4)), encoding="utf-8")
    users.chmod(0o600)
    rest = f'{{"service_id":"{SERVICE}","plan_id":"{PLAN}","organization_guid":"o","space_guid":"s",'
    rest += '"parameters":PARAMETERS}'
    at, health, body = free_address(), f"http://{free_address()}", longest(rest, shape)
    requests = []
    for number in range(AT_ONCE):
        login = base64.b64encode(f"user-{number % 4}:secret-of-16-bytes".encode()).decode()
        headers = {"Authorization": f"Basic {login}", "X-Broker-API-Version": "2.17"}
        requests.append(("PUT", f"/v2/service_instances/{shape}-{number}", body, headers))
    command = serve(broker, at, health, "--state", str(tmp_path / "state"), "--users-file", str(users))
    with running(*command, health=health, environment={"PATH": OF_BROKER["PATH"]}) as pid:
        found = sent(at, requests)
        assert most_resident(pid) < MOST
        assert set(found) <= {201, 503} and found[201] > AT_ONCE / 4
        assert sent(at, [("PUT", "/v2/service_instances/longer", body + " " * 100, requests[0][3])]) == {413: 1}


@pytest.mark.long(10)
@pytest.mark.parametrize("shape", SHAPES)
def test_of_the_api(broker: Path, platform: Path, tmp_path: Path, shape: str) -> None:
    """The same at the API of the platform, without a worker."""
    token = "0123456789abcdef" * 4
    tokens = tmp_path / "tokens"
    tokens.write_text(f"portal read,write {hashlib.sha256(token.encode()).hexdigest()}\n", encoding="utf-8")
    tokens.chmod(0o600)
    of_broker, of_platform, at = free_address(), f"http://{free_address()}", free_address()
    health = f"http://{free_address()}"
    order(platform, tmp_path, "key", "--to", str(tmp_path / "key"))
    order(platform, tmp_path, "broker", "add", "shelf", f"http://{of_broker}", "--store-password")
    served = serve(broker, of_broker, health, "--state", str(tmp_path / "state"))
    with running(*served, health=health, environment=OF_BROKER):
        subprocess.run([platform, "run", "--once"], env=environment(tmp_path), check=True, capture_output=True)
    rest = f'{{"broker":"shelf","service":"{SERVICE}","plan":"{PLAN}","parameters":PARAMETERS}}'
    headers = {"Authorization": f"Bearer {token}", "Content-Type": "application/json"}
    requests = [("POST", "/v1/instances", longest(rest, shape), headers)] * AT_ONCE
    command = [str(platform), "serve", "--api", at, "--api-tokens", str(tokens)]
    command += ["--health-listen", of_platform.partition("//")[2]]
    with running(*command, health=of_platform, environment=environment(tmp_path)) as pid:
        found = sent(at, requests)
        assert most_resident(pid) < MOST
        assert set(found) <= {201, 503} and found[201] > 0


@pytest.mark.parametrize("folder, name", [("osb-broker", "osb-broker"), ("osb-platform", "osb-platform-api")])
def test_kubernetes_allows_it(folder: str, name: str) -> None:
    """The limit of the container has room for it, and for half as much of other memory."""
    (found,) = [deployment for deployment in of_kind(folder, "Deployment") if deployment["metadata"]["name"] == name]
    (container,) = found["spec"]["template"]["spec"]["containers"]
    limit = container["resources"]["limits"]["memory"]
    assert limit.endswith("Mi") and int(limit[:-2]) << 20 > 1.5 * MOST
