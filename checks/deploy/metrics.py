"""What the two programs export at /metrics, what docs/operating.md lists, and what the dashboards ask for."""

from __future__ import annotations

import json
import re
import urllib.request
from pathlib import Path

from conform.small_broker import CATALOG
from docs.pages import read

Metrics = dict[str, set[str]]
"""The labels of each metric. A histogram is one metric, without its label `le`."""

_SAMPLE = re.compile(r"^([a-z]\w*)(?:\{(.*)\})? \S+$", re.MULTILINE)
_TYPE = re.compile(r"^# TYPE (\w+) histogram$", re.MULTILINE)
_METRIC = re.compile(r"`([a-z]\w+)(?:\{([\w,]+)\})?`")


def exported(address: str) -> Metrics:
    """What is exported at this address of --health-listen, without Go's own metrics."""
    with urllib.request.urlopen(f"{address}/metrics", timeout=60) as answer:
        text = answer.read().decode()
    histograms = set(_TYPE.findall(text))
    found: Metrics = {}
    for name, labels in _SAMPLE.findall(text):
        base = re.sub("_(bucket|sum|count)$", "", name)
        if not name.startswith("go_"):
            names = set(re.findall(r'(\w+)="', labels)) - {"le"}
            found.setdefault(base if base in histograms else name, set()).update(names)
    return found


def listed(program: str, page: str = "docs/operating.md") -> Metrics:
    """What the page lists in the section of the program."""
    _, _, rest = read(page).partition(f"\n## Metrics of {program}\n")
    section = rest.partition("\n## ")[0]
    rows = re.findall(r"^\| (`[a-z].*?) \|", section, re.MULTILINE)
    cells = [name for row in rows for name in _METRIC.findall(row)]
    return {name: set(filter(None, labels.split(","))) for name, labels in cells}


def queries(dashboard: str) -> list[str]:
    return [target["expr"] for panel in json.loads(dashboard)["panels"] for target in panel["targets"]]


_SUFFIX = re.compile(r"_(bucket|sum|count)$")
_SELECTOR = re.compile(r"\b([a-z]\w*_\w+)\{([^}]*)\}")
_BY = re.compile(r"\bby \(([^)]*)\)")
_TARGET = {"job", "instance"}
"""The labels that Prometheus adds."""


def unknown(query: str, metrics: Metrics) -> set[str]:
    """The metrics and labels of a query that aren't exported. Each metric of a query has a selector."""
    found, labels = set(), set(_TARGET)
    for name, selector in _SELECTOR.findall(query):
        base = name if name in metrics else _SUFFIX.sub("", name)
        if base not in metrics:
            found.add(name)
        labels |= metrics.get(base, set()) | ({"le"} if name.endswith("_bucket") else set())
        found |= set(re.findall(r"(\w+)\s*=~?", selector)) - metrics.get(base, set()) - _TARGET
    for grouped in _BY.findall(query):
        found |= set(re.findall(r"\w+", grouped)) - labels
    return found


def is_chosen(query: str) -> bool:
    """Whether each metric of a query is that of the chosen jobs, and each rate that of the dashboard's interval."""
    selected = all('job=~"$job"' in selector for _, selector in _SELECTOR.findall(query))
    return selected and set(re.findall(r"\[(.*?)\]", query)) <= {"$__rate_interval"}


def asked(query: str, metrics: Metrics) -> set[str]:
    """The metrics that a query asks for."""
    return {name if name in metrics else _SUFFIX.sub("", name) for name, _ in _SELECTOR.findall(query)}


FAILING = """#!/bin/sh
case $1 in
    capabilities) echo '{"bindings": false, "credentials": false}' ;;
    look) echo '{"exists": "none"}' ;;
    *) exit 1 ;;
esac
"""
"""A command backend that creates nothing."""


def failing(folder: Path) -> tuple[Path, Path]:
    """The program of that backend, and a catalogue with an asynchronous plan."""
    program, catalogue = folder / "backend", folder / "catalogue.json"
    program.write_text(FAILING, encoding="utf-8")
    program.chmod(0o755)
    sold = json.loads(json.dumps(CATALOG))
    sold["services"][0]["plans"][0]["x-osb-asynchronous"] = True
    catalogue.write_text(json.dumps(sold), encoding="utf-8")
    return program, catalogue
