"""The proved library libosb for Python: values, wire, tables and texts under the Open Service Broker API 2.17. A broker
whose resources are created in Python is a command backend of osb-broker (docs/broker-guide.md), and a platform is
osb-platform, with an API over HTTP (docs/platform-guide.md).

- `Record` and `Holding`: one instance as a value, as a platform and as a broker keep it in a database, with its text.
- `UpdateHolding`: the updates of one instance, as a broker keeps them.
- `Driver`: what a broker does next. `UpdateDriver`: the same at an instance that can be updated. `PlatformDriver`: what
  a platform does next.
- `osb.wire`: requests and answers as HTTP and JSON have them. `osb.binding_wire`: those of bindings.
  `osb.update_wire`: Updates and Fetches.
- `osb.tables`: two of the platform's tables.

The environment variable LIBOSB names the library's file. If it isn't set, libosb.so.0 is loaded: in a wheel the file
beside the package, else the one that the system finds. If the library doesn't do what a call asks, the call raises
`OsbError`. docs/python.md has a first program.
"""
from __future__ import annotations

from osb._header import VERSION
from osb._lib import version
from osb.driver import NO_NUMBER, Driver, Reading, Transaction
from osb.enums import (
    Allowed,
    Body,
    Call,
    CleanUp,
    Effect,
    Kind,
    Look,
    Mode,
    Outcome,
    Phase,
    PlatformStage,
    Stage,
    State,
    Status,
    There,
    UpdateOutcome,
    UpdatePhase,
    Work,
)
from osb.errors import OsbError, Refusal
from osb.holding import NO_ATTRIBUTES, Holding, work_of
from osb.ids import Id
from osb.messages import Answer, BrokerRow, Endpoints, Plan, PlatformRow, Request
from osb.platform_driver import PlatformDriver, PlatformReading, PlatformTransaction
from osb.record import Record
from osb.update import Change, Found, MaintenanceConflict, Settings, Update, UpdateHolding, UpdateWork
from osb.update_driver import UpdateDriver, UpdateReading, UpdateTransaction

__version__ = f"{VERSION // 10000}.{VERSION // 100 % 100}.{VERSION % 100}"
"""The version of this package, and of the header that it is written for."""

__all__ = [
    "Allowed",
    "Answer",
    "Body",
    "BrokerRow",
    "Call",
    "Change",
    "CleanUp",
    "Driver",
    "Effect",
    "Endpoints",
    "Found",
    "Holding",
    "Id",
    "Kind",
    "Look",
    "MaintenanceConflict",
    "Mode",
    "NO_ATTRIBUTES",
    "NO_NUMBER",
    "OsbError",
    "Outcome",
    "Phase",
    "Plan",
    "PlatformDriver",
    "PlatformReading",
    "PlatformRow",
    "PlatformStage",
    "PlatformTransaction",
    "Reading",
    "Record",
    "Refusal",
    "Request",
    "Settings",
    "Stage",
    "State",
    "Status",
    "There",
    "Transaction",
    "Update",
    "UpdateDriver",
    "UpdateHolding",
    "UpdateOutcome",
    "UpdatePhase",
    "UpdateReading",
    "UpdateTransaction",
    "UpdateWork",
    "Work",
    "__version__",
    "version",
    "work_of",
]
