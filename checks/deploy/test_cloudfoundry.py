"""The manifest for Cloud Foundry, and the script that starts the broker there."""

from __future__ import annotations

import json
import os
import re
import subprocess
from pathlib import Path
from typing import Any

import pytest
from commands import needs
from deploy.files import DEPLOY, TOP, Value, documents, faults
from docs.pages import read

from deploy import schemas

FOLDER = DEPLOY / "cloudfoundry"
PAGE = "docs/with-cloud-foundry.md"


def manifest() -> Value:
    (only,) = documents(FOLDER / "manifest.yml")
    return only


def test_schema() -> None:
    assert faults(manifest(), schemas.MANIFEST) == []


@pytest.mark.parametrize("name, wrong", [("memory", 256), ("health-check-type", "https"), ("buildpack", "binary")])
def test_schema_finds(name: str, wrong: object) -> None:
    edited = manifest()
    edited["applications"][0][name] = wrong
    assert len(faults(edited, schemas.MANIFEST)) == 1


def test_services() -> None:
    """The app is bound to the services that the script reads, and the page creates each of them."""
    (app,) = manifest()["applications"]
    script = (FOLDER / "start").read_text(encoding="utf-8")
    bound = set(app["services"])
    assert bound == set(re.findall(r"\bof (osb-broker-\w+)", script)) and len(bound) == 3
    assert bound == set(re.findall(r"^cf create-service credhub default (\S+)", read(PAGE), re.MULTILINE))
    assert set(app["env"]) == set(re.findall(r'"\$([A-Z_]+)"', script)) - {"VCAP_SERVICES"}


def test_health() -> None:
    (app,) = manifest()["applications"]
    assert app["health-check-http-endpoint"] == "/healthz"
    assert app["readiness-health-check-http-endpoint"] == "/readyz"


def members(block: str) -> Value:
    """An object that the page shows."""
    found: Value = json.loads(block)
    return found


def services() -> dict[str, Value]:
    """The services of the page, with the credentials that the page shows, in its order."""
    names = re.findall(r"^cf create-service credhub default (\S+)", read(PAGE), re.MULTILINE)
    shown = re.findall(r"^```json\n(.*?)^```", read(PAGE), re.MULTILINE | re.DOTALL)
    return dict(zip(names, map(members, shown)))


STAND_IN = """#!/bin/sh
for argument in "$@"; do echo "$argument"; done >arguments
env >environment
cat "$PGPASSFILE" >pgpass
folder=$(dirname "$PGPASSFILE")
find "$folder" -type f -printf '%m %f\\n' >modes
cp "$folder/users" "$folder/backend.key" "$folder/store-ca.crt" .
"""


def start(folder: Path, credentials: dict[str, Value], *arguments: str) -> subprocess.CompletedProcess[str]:
    """Runs the script as Cloud Foundry does, with a stand-in for the broker, which writes down what it gets."""
    needs("jq")
    (folder / "osb-broker").write_text(STAND_IN, encoding="utf-8")
    (folder / "osb-broker").chmod(0o755)
    bound = [{"name": name, "credentials": credential} for name, credential in credentials.items()]
    environment = {
        "PATH": os.environ["PATH"],
        "TMPDIR": str(folder),
        "PORT": "8080",
        "CUSTOMER_ADDRESS": "shop.example:5432",
        "VCAP_SERVICES": json.dumps({"credhub": bound[:2], "user-provided": bound[2:]}),
    }
    command = [str(FOLDER / "start"), *arguments]
    return subprocess.run(command, cwd=folder, env=environment, capture_output=True, text=True)


@pytest.mark.slow
@pytest.mark.usefixtures("broker")
def test_start(tmp_path: Path) -> None:
    """The broker gets its files, which only its user can read, and takes each of its options."""
    credentials = services()
    credentials["osb-broker-store"]["password"] = "a:b\\c"
    assert start(tmp_path, credentials, "--existing").stderr == ""
    arguments = (tmp_path / "arguments").read_text(encoding="utf-8").splitlines()
    assert arguments[0] == "serve" and arguments[-1] == "--existing"
    ran = subprocess.run([TOP / "osb-broker", *arguments, "--help"], capture_output=True, text=True)
    assert (ran.returncode, ran.stderr) == (0, "")
    given: dict[str, Any] = dict(zip(arguments[1:-1:2], arguments[2:-1:2]))
    assert re.fullmatch(
        r"postgresql://broker@db\.example:5432/brokers\?sslmode=verify-full&sslrootcert=/\S+/store-ca\.crt",
        given["--store"],
    )
    assert given["--listen"] == "0.0.0.0:8080" and int(given["--stop-seconds"]) < 10
    assert (tmp_path / "pgpass").read_text(encoding="utf-8") == (
        "db.example:5432:brokers:broker:a\\:b\\\\c\nshop.example:5432:*:seller:seller-password\n"
    )
    assert {line.split()[0] for line in (tmp_path / "modes").read_text(encoding="utf-8").splitlines()} == {"600"}
    assert (tmp_path / "users").read_text(encoding="utf-8") == "cf:THE-PASSWORD\n"
    assert (tmp_path / "store-ca.crt").read_text(encoding="utf-8").startswith("-----BEGIN CERTIFICATE-----\n")
    assert "VCAP_SERVICES" not in (tmp_path / "environment").read_text(encoding="utf-8")


@pytest.mark.slow
def test_start_without_a_member(tmp_path: Path) -> None:
    credentials = services()
    del credentials["osb-broker-sold"]["backend_key"]
    ran = start(tmp_path, credentials)
    assert ran.returncode == 1
    assert ran.stderr == "start: the credentials of the service osb-broker-sold lack a member\n"
    assert not (tmp_path / "arguments").exists()
