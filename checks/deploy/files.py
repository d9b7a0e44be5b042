"""The files in deploy/, as values."""

from __future__ import annotations

import re
from pathlib import Path
from typing import Any, Iterator

import pytest

TOP = Path(__file__).resolve().parents[2]
DEPLOY = TOP / "deploy"
KUBERNETES = DEPLOY / "kubernetes"
FOLDERS = ("osb-broker", "osb-broker-first-start", "osb-platform")
PROGRAMS = ("osb-broker", "osb-platform")

yaml = pytest.importorskip("yaml", reason="PyYAML isn't installed (Debian: python3-yaml)")
jsonschema = pytest.importorskip("jsonschema", reason="jsonschema isn't installed (Debian: python3-jsonschema)")

Value = dict[str, Any]


def documents(file: Path) -> list[Value]:
    return [document for document in yaml.safe_load_all(file.read_text(encoding="utf-8")) if document is not None]


def faults(value: object, schema: Value) -> list[str]:
    """What of the value doesn't fit the schema, with the place."""
    validator = jsonschema.Draft7Validator(schema)
    return [f"{'/'.join(map(str, error.absolute_path))}: {error.message}" for error in validator.iter_errors(value)]


def kustomization(folder: str) -> Value:
    (only,) = documents(KUBERNETES / folder / "kustomization.yaml")
    return only


def objects(folder: str) -> list[Value]:
    """The objects that the kustomization of the folder lists, in files of the folder."""
    names = kustomization(folder)["resources"]
    return [document for name in names for document in documents(KUBERNETES / folder / name)]


def of_kind(folder: str, kind: str) -> list[Value]:
    """Those of one kind. There is at least one."""
    found = [document for document in objects(folder) if document["kind"] == kind]
    assert found, f"{folder} has no {kind}"
    return found


def workloads(folder: str) -> list[Value]:
    """The Deployments and StatefulSets."""
    found = [document for document in objects(folder) if document["kind"] in ("Deployment", "StatefulSet")]
    assert found
    return found


def all_workloads() -> list[tuple[str, Value]]:
    """Those of both programs, each with its folder."""
    return [(folder, workload) for folder in PROGRAMS for workload in workloads(folder)]


def pod(workload: Value) -> Value:
    """The specification of the pods."""
    found: Value = workload["spec"]["template"]["spec"]
    return found


def program(workload: Value) -> Value:
    """The container that runs the program: the only one beside the init container."""
    found: Value
    (found,) = pod(workload)["containers"]
    return found


def selects(selector: Value, labels: Value) -> bool:
    """Whether something with these labels is selected. A selector without labels is a fault."""
    assert selector
    return selector.items() <= labels.items()


def selected(folder: str, selector: Value) -> list[Value]:
    """The workloads whose pods are selected."""
    return [
        workload
        for workload in workloads(folder)
        if selects(selector, workload["spec"]["template"]["metadata"]["labels"])
    ]


def option(container: Value, name: str) -> str | None:
    """The value of an option in the arguments of a container."""
    found = [arg.partition("=")[2] for arg in container["args"] if arg.startswith(f"--{name}=")]
    return found[0] if found else None


def copies(workload: Value) -> dict[str, str]:
    """What the init container writes: the file below /run/osb, and what it is made of."""
    (init,) = pod(workload)["initContainers"]
    (script,) = init["args"]
    return {name: of for of, name in re.findall(r"^cat (.+?) >(\S+)$", script, re.MULTILINE)}


def literals(folder: str) -> dict[str, str]:
    """The texts of the ConfigMap that the kustomization makes."""
    (made,) = kustomization(folder)["configMapGenerator"]
    return dict(literal.split("=", 1) for literal in made["literals"])


def yaml_files() -> Iterator[Path]:
    """Every file of YAML below deploy/kubernetes."""
    return iter(sorted(KUBERNETES.rglob("*.yaml")))
