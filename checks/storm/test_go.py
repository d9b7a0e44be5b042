"""What the storm puts into both programs, in Go: its tests. checks/go vets all packages with its tag."""
from __future__ import annotations

import pytest
from go.toolchain import Packages

pytestmark = pytest.mark.slow

TAGS = "storm"


def test_tests(packages: Packages) -> None:
    packages.test("./storm/without", tags=TAGS, race=True)


@pytest.mark.long(15)
def test_hook(packages: Packages) -> None:
    """The code of the storm in the platform's program."""
    packages.test("./cmd/osb-platform", tags=TAGS, options=("-run", "TestForStorm"), race=True)
