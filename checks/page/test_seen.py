"""The page as Chromium shows it, in light and dark, on a desk's screen and on a phone's.

Nothing is cut off, each text stands out from its background, each state has its word, and the keyboard is enough. What
a broker says is shown as text, whatever it is.
"""
from __future__ import annotations

from pathlib import Path

import pytest
from page import looks, stores
from page.browser import Browser
from page.conftest import ShownStore, shown

pytestmark = [pytest.mark.browser, pytest.mark.slow]


@pytest.mark.parametrize("target", ["", "?kind=bindings", "nowhere"])
def test_empty_store(tab: Browser, empty: ShownStore, tmp_path: Path, target: str) -> None:
    assert looks.pictures(tab, empty.url + target, tmp_path, "empty") == looks.rejected(target == "nowhere")


@pytest.mark.parametrize(
    "target",
    [
        "",
        "?order=oldest&page=last",
        "?state=unsettled",
        "?state=abandoned",
        "?state=in-flight",
        "?kind=bindings",
        "?find=0",
        "?find=none",
    ],
)
def test_lists(tab: Browser, storm: ShownStore, tmp_path: Path, target: str) -> None:
    assert looks.pictures(tab, storm.url + target, tmp_path, "list") == []


@pytest.mark.parametrize("state", ["polling", "cleaning", "unsettled", "ready"])
def test_one_instance(tab: Browser, storm: ShownStore, tmp_path: Path, state: str) -> None:
    """The one with the longest life of those in a state."""
    id = stores.longest_life(storm.store, state)
    assert looks.pictures(tab, f"{storm.url}instance/{id}", tmp_path, "one") == []


def test_binding(tab: Browser, storm: ShownStore, tmp_path: Path) -> None:
    assert looks.pictures(tab, storm.url + stores.binding(storm.store), tmp_path, "binding") == []


def test_hostile_texts(tab: Browser, storm: ShownStore) -> None:
    """They are shown as they are, in a reason, an operation, a broker's answer and an id."""
    for target in ("", "?state=unsettled", f"instance/{stores.hostile(storm.store)}"):
        tab.open(storm.url + target)
        assert looks.texts(tab, stores.HARMFUL[:40]) > 0, target
        assert looks.elements(tab, "main script, main b") == 0, target
    assert tab.complaints == []


def test_no_secrets(tab: Browser, storm: ShownStore) -> None:
    """Neither parameters nor identities, passwords and credentials are anywhere on a page."""
    ready = stores.longest_life(storm.store, "ready")
    for target in ("", "?state=ready", "?kind=bindings", f"instance/{ready}", stores.binding(storm.store)):
        tab.open(storm.url + target)
        source = tab.value("document.documentElement.outerHTML")
        assert "osb-platform" in source and stores.SECRET not in source, target


def test_keyboard(tab: Browser, storm: ShownStore) -> None:
    assert looks.keys(tab, storm.url) == []


def test_refresh(tab: Browser, storm: ShownStore) -> None:
    """The page refreshes by itself. The focus, typed text and the place on the page stay."""
    assert looks.refreshed(tab, storm.url, storm.store) == []


def test_after_the_program(tab: Browser, tmp_path: Path, library: Path, platform: Path) -> None:
    """After the program has ended, the page says so."""
    store = tmp_path / "instances.sqlite"
    stores.storm(store)
    with shown(store) as page:
        tab.size(*looks.SIZES[0])
        tab.open(page.url)
    assert looks.alone(tab) == []
