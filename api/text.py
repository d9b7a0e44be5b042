"""JSON as text, for people who read it and its differences."""
from __future__ import annotations

import json
from typing import Any

WIDTH = 116
"""A value that is no longer than this stands on one line."""


def written(value: Any, indent: str = "") -> str:
    """The value as JSON. What fits into a line stands on one."""
    line = json.dumps(value, ensure_ascii=False)
    if not isinstance(value, (dict, list)) or len(indent) + len(line) <= WIDTH:
        return line
    inner = indent + "  "
    if isinstance(value, dict):
        parts = [f"{inner}{json.dumps(name)}: {written(member, inner)}" for name, member in value.items()]
        return "{\n" + ",\n".join(parts) + f"\n{indent}}}"
    return "[\n" + ",\n".join(inner + written(member, inner) for member in value) + f"\n{indent}]"
