"""A small platform that forgets an instance if its creation isn't answered with 201. As a program, it creates some
instances at the broker OSB_STORM_URL, each with a new id, and writes the ids of those that it has to a file.
"""
from __future__ import annotations

import base64
import http.client
import json
import os
import sys
import uuid
from contextlib import closing
from pathlib import Path
from urllib.parse import urlsplit

SERVICE, PLAN = "00000000-0000-0000-0000-0000000005a0", "00000000-0000-0000-0000-0000000005b1"


class Forgetful:
    """A platform that sends a Provision, and forgets the instance if nothing comes."""

    def __init__(self, port: int, version: str = "2.17") -> None:
        self._port, self._version = port, version

    def create(self, id: str) -> bool:
        """Whether the answer came."""
        login = base64.b64encode(b"platform:secret").decode()
        headers = {"Authorization": f"Basic {login}", "Content-Type": "application/json"}
        if self._version:
            headers["X-Broker-API-Version"] = self._version
        body = json.dumps({"service_id": SERVICE, "plan_id": PLAN, "organization_guid": "o", "space_guid": "s"})
        with closing(http.client.HTTPConnection("127.0.0.1", self._port, timeout=1)) as connection:
            try:
                connection.request("PUT", f"/v2/service_instances/{id}?accepts_incomplete=true", body, headers)
                return connection.getresponse().status == 201
            except (OSError, http.client.HTTPException):
                return False


def main() -> None:
    """Creates as many instances as the first argument says. The second one is the file."""
    port = urlsplit(os.environ["OSB_STORM_URL"]).port
    assert port is not None
    platform = Forgetful(port)
    ids = [str(uuid.uuid4()) for _ in range(int(sys.argv[1]))]
    Path(sys.argv[2]).write_text("".join(f"{id}\n" for id in ids if platform.create(id)))


if __name__ == "__main__":
    main()
