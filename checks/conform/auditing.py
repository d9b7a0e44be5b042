"""osb-audit over the journals of a storm."""
from __future__ import annotations

import json
import os
from pathlib import Path
from typing import Any

from commands import printed

TOP = Path(__file__).resolve().parents[2]


def audited(journal: Path, replay: Path) -> dict[str, Any]:
    """The report about the journals of both sides below a folder. They are as the model says, and each instance is
    judged to its end.
    """
    line = [TOP / "osb-audit", "--json", "--unjudged", "0", journal / "broker", journal / "platform"]
    environment = {**os.environ, "OSB_REPLAY": str(replay)}
    found: dict[str, Any] = json.loads(printed(line, environment=environment))
    return found
