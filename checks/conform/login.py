"""How osb-storm logs in at the brokers of these tests."""
from __future__ import annotations

import os

ENVIRONMENT = {**os.environ, "OSB_BROKER_PASSWORD": "secret"}
"""The environment of osb-storm, and of osb-broker."""

WITH_SIGNALS = ["env", "--default-signal=HUP"]
"""Before the line of a program: SIGHUP reaches it, even if the tests are run with nohup."""
