"""Rate limits that any number of processes share: so many requests a minute for each key.

    python3 limits.py unix:/tmp/limits/limits.sock 5003 100

listens at that port of this machine, and allows each key 100 requests a minute: `GET /allowed/KEY` is answered 200 or 429.
"""

from __future__ import annotations

import sys
import time
from typing import List

from silo import Client, Counter
from web import Answer, Service, serve

SECONDS = 60


class Hits(Counter):
    """How often a key was used in a minute. It is never saved, so it goes once nobody has called it for its age."""

    prefix = "hits/"


class Limits(Service):
    def __init__(self, gateway: str, most: int) -> None:
        super().__init__(gateway, "limits/web")
        self._most = most

    def answer(self, web: Client, method: str, path: List[str], body: bytes) -> Answer:
        if method != "GET" or len(path) != 2 or path[0] != "allowed":
            return 404, {"error": "GET /allowed/KEY"}
        now = int(time.time())
        # one turn counts and tells: no two processes are told the same number
        count = Hits(web, f"{path[1]}/{now // SECONDS}").add(by=1)
        if count > self._most:
            return 429, {"seconds": SECONDS - now % SECONDS}
        return 200, {"left": self._most - count}


if __name__ == "__main__":
    if len(sys.argv) != 4:
        sys.exit("usage: limits.py unix:PATH PORT REQUESTS")
    serve(Limits(sys.argv[1], int(sys.argv[3])), int(sys.argv[2]))
