"""Fixtures: stores with the page that shows them, and a browser."""
from __future__ import annotations

import contextlib
from pathlib import Path
from typing import Callable, Iterator, NamedTuple

import pytest
from page import program
from page.browser import Browser, browser, found


class ShownStore(NamedTuple):
    """A store that a page shows."""

    url: str
    store: Path


@contextlib.contextmanager
def shown(store: Path) -> Iterator[ShownStore]:
    """The page of a store, until the end of the block."""
    with program.serving(store) as url:
        yield ShownStore(url, store)


def fixture_of(kind: str) -> Callable[..., Iterator[ShownStore]]:
    """A store of this kind, and its page."""

    @pytest.fixture(scope="module")
    def made(tmp_path_factory: pytest.TempPathFactory, library: Path, platform: Path) -> Iterator[ShownStore]:
        from page import stores  # the fixture has found the library by now

        store = tmp_path_factory.mktemp(kind) / "instances.sqlite"
        getattr(stores, kind)(store)
        with shown(store) as page:
            yield page

    return made


empty, storm, large = map(fixture_of, ("empty", "storm", "large"))


@pytest.fixture(scope="module")
def tab() -> Iterator[Browser]:
    """A tab of a new browser."""
    path = found()
    if path is None:
        pytest.skip("Chromium isn't installed (Debian: apt-get install chromium)")
    with browser(path) as started:
        yield started
