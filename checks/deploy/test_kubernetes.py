"""The files for Kubernetes: they fit the API's schemas, each other, the programs, and the page that explains them."""

from __future__ import annotations

import copy
import json
import re
import subprocess
from pathlib import Path
from typing import Any, Callable

import pytest
from deploy.files import (
    FOLDERS,
    KUBERNETES,
    PROGRAMS,
    TOP,
    Value,
    all_workloads,
    copies,
    documents,
    faults,
    kustomization,
    literals,
    objects,
    of_kind,
    option,
    pod,
    program,
    selected,
    selects,
    workloads,
    yaml,
    yaml_files,
)
from docs.pages import read

from deploy import schemas

PAGE = "docs/with-kubernetes.md"
NAMES = [f"{folder}/{workload['metadata']['name']}" for folder, workload in all_workloads()]
each_workload = pytest.mark.parametrize("folder, workload", all_workloads(), ids=NAMES)
each_program = pytest.mark.parametrize("folder", PROGRAMS)


# ---- Schemas


@pytest.mark.parametrize("file", yaml_files(), ids=lambda it: str(it.relative_to(KUBERNETES)))
def test_schema(file: Path) -> None:
    found = documents(file)
    assert found
    for resource in found:
        assert faults(resource, schemas.KINDS[resource["kind"]]) == []


def _put(*path: Any, value: Any) -> Callable[[Value], None]:
    def put(within: Any) -> None:
        for step in path[:-1]:
            within = within[step]
        within[path[-1]] = value

    return put


CONTAINER = ("spec", "template", "spec", "containers", 0)
WRONG = {
    "a number as text": _put("spec", "replicas", value="2"),
    "an unknown field": _put(*CONTAINER, "livenesProbe", value={}),
    "a port without a name": _put(*CONTAINER, "ports", value=[{"containerPort": 8443}]),
    "a port that is too high": _put(*CONTAINER, "ports", value=[{"name": "broker", "containerPort": 84430}]),
    "a text for a boolean": _put("spec", "template", "spec", "securityContext", "runAsNonRoot", value="yes"),
    "an older version": _put("apiVersion", value="apps/v1beta1"),
    "a name in upper case": _put("metadata", "name", value="Broker"),
    "memory in megabytes": _put(*CONTAINER, "resources", "limits", "memory", value="512 MB"),
}


@pytest.mark.parametrize("wrong", WRONG)
def test_schema_finds(wrong: str) -> None:
    (given,) = workloads("osb-broker")
    edited = copy.deepcopy(given)
    WRONG[wrong](edited)
    assert faults(given, schemas.KINDS["Deployment"]) == []
    assert len(faults(edited, schemas.KINDS["Deployment"])) == 1


# ---- The kustomizations


@each_program
def test_all_files_are_listed(folder: str) -> None:
    files = {path.name for path in (KUBERNETES / folder).iterdir()} - {"kustomization.yaml"}
    (made,) = kustomization(folder)["configMapGenerator"]
    assert files == {*kustomization(folder)["resources"], *made.get("files", [])}
    assert sorted(FOLDERS) == sorted(path.name for path in KUBERNETES.iterdir())


@each_program
def test_images(folder: str) -> None:
    """Each image has a tag; the program's is this version, under the name of the program."""
    images = {image["name"]: image for image in kustomization(folder)["images"]}
    pods = [pod(workload) for workload in workloads(folder)]
    used = {container["image"] for spec in pods for container in (*spec["initContainers"], *spec["containers"])}
    assert used == set(images) == {folder, "busybox"}
    assert {program(workload)["image"] for workload in workloads(folder)} == {folder}
    header = read("include/osb.h")
    numbers = [re.search(rf"#define OSB_VERSION_{part} (\d+)", header) for part in ("MAJOR", "MINOR", "PATCH")]
    assert images[folder]["newTag"] == ".".join(number[1] for number in numbers if number is not None)
    assert images[folder]["newName"].endswith(f"/{folder}")


def test_first_start_is_the_base_without_existing() -> None:
    first = kustomization("osb-broker-first-start")
    assert first["resources"] == ["../osb-broker"]
    (patch,) = first["patches"]
    (broker,) = workloads("osb-broker")
    assert patch["target"] == {"kind": broker["kind"], "name": broker["metadata"]["name"]}
    (steps,) = yaml.safe_load_all(patch["patch"])
    test, remove = steps
    at = program(broker)["args"].index("--existing")
    assert test == {"op": "test", "path": f"/spec/template/spec/containers/0/args/{at}", "value": "--existing"}
    assert remove == {"op": "remove", "path": test["path"]}


# ---- The programs


def arguments(folder: str, workload: Value, there: Path) -> list[str]:
    """The arguments of the program as it gets them, with files below this folder."""
    values = {name.upper().replace("-", "_"): text for name, text in literals(folder).items()}
    values["WORKER"] = "osb-platform-0"
    filled = [re.sub(r"\$\((\w+)\)", lambda it: values[str(it[1])], arg) for arg in program(workload)["args"]]
    return [arg.replace("/run/osb/", f"{there}/").replace("/etc/osb/", f"{KUBERNETES}/{folder}/") for arg in filled]


@pytest.mark.slow
@pytest.mark.usefixtures("broker", "platform")
@each_workload
def test_options(folder: str, workload: Value, tmp_path: Path) -> None:
    """The program takes each of the options, with its value."""
    given = arguments(folder, workload, tmp_path)
    ran = subprocess.run([TOP / folder, *given, "--help"], capture_output=True, text=True)
    assert (ran.returncode, ran.stderr) == (0, "")
    wrong = subprocess.run([TOP / folder, *given, "--no-such-option"], capture_output=True, text=True)
    assert wrong.returncode == 2


@pytest.mark.slow
def test_catalogue(broker: Path, tmp_path: Path) -> None:
    file = KUBERNETES / "osb-broker" / "catalogue.json"
    given = [str(broker), "serve", "--state", str(tmp_path), "--listen", "127.0.0.1:0", "--catalog", str(file)]
    serving = subprocess.Popen(given, env={"OSB_BROKER_PASSWORD": "secret"}, stderr=subprocess.PIPE, text=True)
    try:
        assert serving.stderr is not None
        assert any('"event":"serving"' in line for line in serving.stderr)
    finally:
        serving.terminate()
        serving.communicate()


@pytest.mark.slow
@each_workload
def test_init_script(folder: str, workload: Value, tmp_path: Path) -> None:
    """It writes each file that the program reads, for its user alone, and one file with all PostgreSQL passwords."""
    (init,) = pod(workload)["initContainers"]
    run, secrets = tmp_path / "run", tmp_path / "secrets"
    run.mkdir()
    for path in re.findall(r"/secrets/(\S+)", init["args"][0]):
        (secrets / path).parent.mkdir(parents=True, exist_ok=True)
        (secrets / path).write_text(f"{path}\n", encoding="utf-8")
    script = init["args"][0].replace("/run/osb", str(run)).replace("/secrets/", f"{secrets}/")
    subprocess.run([*init["command"], script], check=True)
    modes = {file.name: file.stat().st_mode & 0o777 for file in run.iterdir()}
    assert modes == dict.fromkeys(copies(workload), 0o600)
    servers = {"osb-broker": "store/pgpass\nsold/pgpass\n", "osb-platform": "store/pgpass\n"}
    assert (run / "pgpass").read_text(encoding="utf-8") == servers[folder]


@each_workload
def test_files_are_written_before_they_are_read(folder: str, workload: Value) -> None:
    container = program(workload)
    texts = [*container["args"], *(variable["value"] for variable in container.get("env", []) if "value" in variable)]
    texts += literals(folder).values()
    named = set(re.findall(r"/run/osb/([\w.-]+)", " ".join(texts)))
    assert named == set(copies(workload)) and len(named) > 2


# ---- References between the files


@each_workload
def test_volumes(folder: str, workload: Value) -> None:
    """Each mount has its volume, and each volume a mount; the init container reads from Secrets that are mounted."""
    spec = pod(workload)
    volumes = {volume["name"]: volume for volume in spec["volumes"]}
    (init,) = spec["initContainers"]
    mounts = [mount for one in (init, program(workload)) for mount in one["volumeMounts"]]
    assert {mount["name"] for mount in mounts} == set(volumes)
    sources = {mount["mountPath"]: mount["name"] for mount in init["volumeMounts"]}
    for path in re.findall(r"/secrets/\w+", init["args"][0]):
        assert "secret" in volumes[sources[path]]
    assert all(mount.get("readOnly") for mount in mounts if "emptyDir" not in volumes[mount["name"]])
    assert [mount["name"] for mount in mounts if not mount.get("readOnly") and mount in init["volumeMounts"]] == ["run"]


def secrets(folder: str) -> dict[str, set[str]]:
    """The Secrets that the pods of a folder mount, with the keys that are read."""
    found: dict[str, set[str]] = {}
    for workload in workloads(folder):
        names = {
            volume["name"]: volume["secret"]["secretName"] for volume in pod(workload)["volumes"] if "secret" in volume
        }
        (init,) = pod(workload)["initContainers"]
        places = {mount["mountPath"]: mount["name"] for mount in init["volumeMounts"]}
        for place, key in re.findall(r"(/secrets/\w+)/(\S+)", init["args"][0]):
            found.setdefault(names[places[place]], set()).add(key)
    return found


def created() -> dict[str, set[str]]:
    """The Secrets that the page creates, with their keys."""
    text = read(PAGE).replace("\\\n", " ")
    found = {
        name: set(re.findall(r"--from-file=([\w.]+)", rest))
        for name, rest in re.findall(r"create secret generic (\S+)(.*)$", text, re.MULTILINE)
    }
    return {**found, **{name: {"tls.crt", "tls.key"} for name in re.findall(r"create secret tls (\S+)", text)}}


def test_secrets_are_those_of_the_page() -> None:
    mounted = {**secrets("osb-broker"), **secrets("osb-platform")}
    assert len(mounted) == 9
    assert created() == mounted


@each_program
def test_configuration(folder: str) -> None:
    """Each key that a container takes from the ConfigMap is there, and none is for nothing."""
    (made,) = kustomization(folder)["configMapGenerator"]
    used = set()
    for workload in workloads(folder):
        for variable in program(workload).get("env", []):
            reference = variable.get("valueFrom", {}).get("configMapKeyRef")
            if reference:
                assert reference["name"] == made["name"]
                used.add(reference["key"])
        maps = [volume["configMap"]["name"] for volume in pod(workload)["volumes"] if "configMap" in volume]
        assert set(maps) <= {made["name"]}
        given = re.findall(r"\$\((\w+)\)", " ".join(program(workload)["args"]))
        assert set(given) <= {variable["name"] for variable in program(workload)["env"]}
    assert used == set(literals(folder))


@each_workload
def test_own_selector(folder: str, workload: Value) -> None:
    assert selected(folder, workload["spec"]["selector"]["matchLabels"]) == [workload]
    for constraint in pod(workload)["topologySpreadConstraints"]:
        assert selected(folder, constraint["labelSelector"]["matchLabels"]) == [workload]
    assert pod(workload)["serviceAccountName"] in [
        account["metadata"]["name"] for account in of_kind(folder, "ServiceAccount")
    ]
    if workload["kind"] == "StatefulSet":
        assert workload["spec"]["serviceName"] in [
            service["metadata"]["name"] for service in of_kind(folder, "Service")
        ]


@each_program
def test_services(folder: str) -> None:
    """Each Service leads to ports that the programs of its pods listen at."""
    for service in of_kind(folder, "Service"):
        pods = selected(folder, service["spec"]["selector"])
        assert pods
        for port in service["spec"]["ports"]:
            for workload in pods:
                assert port["targetPort"] in [one["name"] for one in program(workload)["ports"]]


LISTENS = {"broker": "listen", "api": "api", "health": "health-listen"}


@each_workload
def test_ports(folder: str, workload: Value) -> None:
    """Each port is the one at which an option has the program listen, and each probe asks the port for health."""
    container = program(workload)
    for port in container["ports"]:
        assert option(container, LISTENS[port["name"]]) == f"0.0.0.0:{port['containerPort']}"
    probes = {name: container[name]["httpGet"] for name in ("readinessProbe", "livenessProbe", "startupProbe")}
    assert {probe["port"] for probe in probes.values()} == {"health"}
    assert [probe["path"] for probe in probes.values()] == ["/readyz", "/healthz", "/healthz"]


@each_program
def test_monitor(folder: str) -> None:
    """It selects one Service, which leads to all processes of the program."""
    (monitor,) = of_kind(folder, "ServiceMonitor")
    labels = monitor["spec"]["selector"]["matchLabels"]
    (service,) = [
        service for service in of_kind(folder, "Service") if selects(labels, service["metadata"].get("labels", {}))
    ]
    (endpoint,) = monitor["spec"]["endpoints"]
    assert (endpoint["port"], endpoint["path"]) == ("health", "/metrics")
    assert endpoint["port"] in [port["name"] for port in service["spec"]["ports"]]
    assert selected(folder, service["spec"]["selector"]) == workloads(folder)


@each_program
def test_budgets(folder: str) -> None:
    """Each workload has one, which leaves a pod, and selects nothing else."""
    budgets = of_kind(folder, "PodDisruptionBudget")
    covered = [selected(folder, budget["spec"]["selector"]["matchLabels"]) for budget in budgets]
    assert sorted(workload["metadata"]["name"] for (workload,) in covered) == sorted(
        workload["metadata"]["name"] for workload in workloads(folder)
    )
    assert all(budget["spec"]["maxUnavailable"] == 1 for budget in budgets)
    assert all(workload["spec"]["replicas"] >= 2 for workload in workloads(folder))


@each_program
def test_network(folder: str) -> None:
    """The policy is for all pods. It lets in what the Services serve, and the programs reach DNS and PostgreSQL."""
    (policy,) = of_kind(folder, "NetworkPolicy")
    assert selected(folder, policy["spec"]["podSelector"]["matchLabels"]) == workloads(folder)
    assert policy["spec"]["policyTypes"] == ["Ingress", "Egress"]
    lets_in = {port["port"] for rule in policy["spec"]["ingress"] for port in rule["ports"]}
    assert lets_in == {port["name"] for w in workloads(folder) for port in program(w)["ports"]}
    lets_out = {(port["protocol"], port["port"]) for rule in policy["spec"]["egress"] for port in rule["ports"]}
    servers = {int(number) for number in re.findall(r"//[^/]+:(\d+)/", " ".join(literals(folder).values()))}
    assert lets_out >= {("UDP", 53), ("TCP", 53), *(("TCP", server) for server in servers)} and servers


def test_platform_reaches_the_broker() -> None:
    (policy,) = of_kind("osb-platform", "NetworkPolicy")
    (broker,) = workloads("osb-broker")
    (port,) = [exposed["containerPort"] for exposed in program(broker)["ports"] if exposed["name"] == "broker"]
    assert port in [opened["port"] for rule in policy["spec"]["egress"] for opened in rule["ports"]]


# ---- Security, and the end


@each_workload
def test_rights(folder: str, workload: Value) -> None:
    spec = pod(workload)
    assert spec["securityContext"] == {
        "runAsNonRoot": True,
        "runAsUser": 65534,
        "runAsGroup": 65534,
        "fsGroup": 65534,
        "seccompProfile": {"type": "RuntimeDefault"},
    }
    assert spec["automountServiceAccountToken"] is False
    for container in (*spec["initContainers"], *spec["containers"]):
        assert container["securityContext"] == {
            "allowPrivilegeEscalation": False,
            "readOnlyRootFilesystem": True,
            "capabilities": {"drop": ["ALL"]},
        }
    assert all(volume["secret"]["defaultMode"] == 0o400 for volume in spec["volumes"] if "secret" in volume)
    text = json.dumps(objects(folder))
    assert "secretKeyRef" not in text and "PASSWORD" not in text


@each_workload
def test_end(folder: str, workload: Value) -> None:
    """The program has the time to stop that its options give it, and the liveness probe doesn't end it before."""
    container = program(workload)
    stop = int(option(container, "stop-seconds") or "0")
    sleep = container.get("lifecycle", {}).get("preStop", {}).get("sleep", {}).get("seconds", 0)
    assert stop > 0 and pod(workload)["terminationGracePeriodSeconds"] >= sleep + stop + 5
    probe = container["livenessProbe"]
    assert probe["periodSeconds"] * (probe["failureThreshold"] - 1) > stop
    assert (sleep > 0) == any(port["name"] in ("broker", "api") for port in container["ports"])


def test_workers_have_names_of_their_own() -> None:
    (workers,) = of_kind("osb-platform", "StatefulSet")
    assert option(program(workers), "worker") == "$(WORKER)"
    (name,) = [variable for variable in program(workers)["env"] if variable["name"] == "WORKER"]
    assert name["valueFrom"] == {"fieldRef": {"fieldPath": "metadata.name"}}
    lease = int(option(program(workers), "seconds") or "0") + 30
    assert f"after their lease, {lease} seconds here" in read(PAGE)


def test_the_broker_starts_over_its_store_only() -> None:
    """It starts with --existing, and with the rule of the first Poll, as by default."""
    (broker,) = workloads("osb-broker")
    assert "--existing" in program(broker)["args"]
    assert option(program(broker), "first-poll") is None


@pytest.mark.parametrize("folder", ["osb-broker", "osb-platform"])
def test_dns_is_that_of_the_cluster(folder: str) -> None:
    """A pod reaches port 53 in one namespace, and not at every address."""
    (policy,) = yaml.safe_load_all((KUBERNETES / folder / "networkpolicy.yaml").read_text())
    rules = [rule for rule in policy["spec"]["egress"] if any(port["port"] == 53 for port in rule["ports"])]
    (rule,) = rules
    assert rule["to"] == [{"namespaceSelector": {"matchLabels": {"kubernetes.io/metadata.name": "kube-system"}}}]
