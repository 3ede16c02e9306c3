"""A process that floods a tenant's socket until it is killed.

    python3 gateway_flooding.py SOCKET add|relays|bursts|gets|puts|connections UNDER_WAY
"""

from __future__ import annotations

import json
import socket
import sys
import threading
from typing import Any, List, Tuple

LEVELS = 12
# lines that cost little, before each burst of lines that cost much
CHEAP = 1_000
RELAYS = [f"relay/red:r{number}" for number in range(4)]


def line(grain: str, method: str, args: Any = None) -> bytes:
    said = {"op": "call", "from": "red/flood", "id": 1, "grain": grain, "method": method, "args": args}
    return json.dumps(said, separators=(",", ":")).encode() + b"\n"


def lines_of(what: str) -> Tuple[List[bytes], bytes]:
    """What it asks first, and then again and again."""
    if what in ("relays", "bursts"):
        # each sends to all, and those to all
        args: Any = {"method": "list", "args": None}
        for _ in range(LEVELS):
            args = {"method": "send", "args": args}
        return [line(one, "join", {"grain": other}) for one in RELAYS for other in RELAYS], line(RELAYS[0], "send", args)
    if what == "gets":
        return [line("sheet/red:s", "put", {"name": "k", "value": "x" * 60_000})], line("sheet/red:s", "get", {"name": "k"})
    if what == "puts":
        return [], line("sheet/red:s", "put", {"name": "k", "value": "x" * 60_000})
    return [], line("counter/red:flood", "add", {"by": 1})


def connected(path: str) -> socket.socket:
    carried = socket.socket(socket.AF_UNIX)
    carried.connect(path)
    return carried


def main(path: str, what: str, under_way: int) -> None:
    first, again = lines_of(what)
    while what == "connections":
        with connected(path) as carried:
            carried.sendall(again)
            carried.recv(65_536)
    carried = connected(path)
    free = threading.Semaphore(under_way)

    def read() -> None:
        while data := carried.recv(1_048_576):
            for _ in range(data.count(b"\n")):
                free.release()

    threading.Thread(target=read, daemon=True).start()
    for asked in first:
        free.acquire()
        carried.sendall(asked)
    while what == "bursts":
        for asked in [line("counter/red:flood", "add", {"by": 1})] * CHEAP + [again] * under_way:
            free.acquire()
            carried.sendall(asked)
    while True:
        free.acquire()
        count = 1
        while count < under_way and free.acquire(blocking=False):
            count += 1
        carried.sendall(again * count)


if __name__ == "__main__":
    main(sys.argv[1], sys.argv[2], int(sys.argv[3]))
