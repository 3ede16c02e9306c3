"""Devices: what each last read, what it should do, and which have fallen silent.

    python3 devices.py unix:/tmp/devices/devices.sock 5005

listens at that port of this machine:

    PUT /devices/lamp7/read/power     31          by the device; it is answered what it should do
    PUT /devices/lamp7/want/power     20          by its owner
    GET /devices/lamp7
    GET /silent/60                                which haven't been heard for 60 seconds
"""

from __future__ import annotations

import json
import sys
import time
import zlib
from typing import Any, Dict, List

from silo import Client, Sheet
from web import Answer, Service, serve

HELP = "PUT /devices/NAME/read/KEY or /want/KEY, GET /devices/NAME, GET /silent/SECONDS"
# no call lists a tenant's grains, so there is an index: in parts, since a state has at most 262,144 bytes
PARTS = 16


class Settings(Sheet):
    def all(self) -> Dict[str, Any]:
        return {name: self.get(name) for name in self.list()}


class Read(Settings):
    """What a device last read. It isn't saved: it goes with a device that is silent for the age of sheets."""

    prefix = "read/"


class Want(Settings):
    """What a device should do."""

    prefix = "want/"


class Seen(Settings):
    """When each device of a part of the index was last heard, in seconds since 1970."""

    prefix = "seen/"


class Devices(Service):
    def __init__(self, gateway: str) -> None:
        super().__init__(gateway, "devices/web")

    def answer(self, web: Client, method: str, path: List[str], body: bytes) -> Answer:
        if path[0] == "devices" and len(path) == 4 and path[2] == "read" and method == "PUT":
            return self.heard(web, path[1], path[3], json.loads(body))
        if path[0] == "devices" and len(path) == 4 and path[2] == "want" and method == "PUT":
            want = Want(web, path[1])
            want.put(path[3], json.loads(body))
            want.save()
            return 200, want.all()
        if path[0] == "devices" and len(path) == 2 and method == "GET":
            return 200, {"read": Read(web, path[1]).all(), "want": Want(web, path[1]).all()}
        if path[0] == "silent" and len(path) == 2 and method == "GET":
            return 200, self.silent(web, int(time.time()) - int(path[1]))
        return 404, {"error": HELP}

    def heard(self, web: Client, device: str, key: str, value: Any) -> Answer:
        """There are no floats: a temperature is in tenths of a degree, say."""
        Read(web, device).put(key, value)
        seen = Seen(web, f"{zlib.crc32(device.encode()) % PARTS}")
        is_new = seen.get(device) is None
        seen.put(device, int(time.time()))
        if is_new:
            # when it was heard may be lost with the silo, that there is such a device not
            seen.save()
        return 200, Want(web, device).all()

    def silent(self, web: Client, since: int) -> List[str]:
        found = {name: at for part in range(PARTS) for name, at in Seen(web, f"{part}").all().items()}
        return sorted(name for name, at in found.items() if at < since)


if __name__ == "__main__":
    if len(sys.argv) != 3:
        sys.exit("usage: devices.py unix:PATH PORT")
    serve(Devices(sys.argv[1]), int(sys.argv[2]))
