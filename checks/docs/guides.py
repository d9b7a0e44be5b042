"""What the tests of the two guides share: their blocks, with ports of a test's own."""
from __future__ import annotations

import re

BROKER, PLATFORM = "docs/broker-guide.md", "docs/platform-guide.md"
CREATE = "ask() { curl -i "
"""How the block begins that creates an instance with a binding, and deletes both."""


def moved(commands: str, port: int, page: int = 0) -> str:
    """The commands, with ports of the test's own."""
    served = commands.replace("osb-broker serve", f"osb-broker serve --listen 127.0.0.1:{port}")
    return served.replace(":8080", f":{port}").replace(":8090", f":{page}")


def healthy(port: int) -> str:
    """The commands that wait until the broker, which was started last, answers. They fail if it has ended."""
    return f"until curl -sf http://127.0.0.1:{port}/healthz >/dev/null; do kill -0 $!; sleep 0.05; done\n"


def statuses(out: str) -> list[str]:
    """The statuses of the answers in the output of `curl -i`."""
    return re.findall(r"^HTTP/1.1 (\d+)", out, re.MULTILINE)
