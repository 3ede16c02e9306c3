"""Clients that ask again what they have no reply to, of a silo that ends at a call, or is killed: each request acts once."""

from __future__ import annotations

import json
import subprocess
import tempfile
import threading
import time
from random import Random
from typing import Iterator, Optional

import places  # noqa: F401
from slow_silo.cut_rows import Calls, Cut, CutMemory, Told
from slow_silo.data import write_whole
from slow_silo.program import run_program

MOST_LIVES = 300
LOGS = [0, 500, 16_777_216]
WORDS = ["--data", "d", "--replies", "1000", "red:9:4", "blue:9:4"]
SECONDS = 60
KILLED = -9
# how many lines a process is asked ahead of what it told: fewer than there may be replies that weren't seen
AHEAD = 400


class Asking:
    """Callers of two tenants: what they ask, in order, each an addition to a counter, and what they were told."""

    def __init__(self, random: Random, count: int):
        self.random = random
        # those of the silo in memory
        self.words = ["answer", *random.choice([[], ["--checkpoints"]]), *WORDS]
        self.greatest: dict[str, int] = {}
        # a caller, its number, the name of a counter, and how much is added
        self.asks: list[tuple[str, int, str, int]] = []
        self.told: list[bytes] = []
        for _ in range(count):
            self.ask()

    def ask(self) -> None:
        caller = f"{self.random.choice(['red', 'blue'])}/c{self.random.randrange(2)}"
        self.greatest[caller] = self.greatest.get(caller, 0) + self.random.randrange(1, 3)
        self.asks.append((caller, self.greatest[caller], self.random.choice("ab"), self.random.randrange(1, 9)))

    def wanted(self) -> list[bytes]:
        """What is told if each acts once, in order."""
        totals: dict[tuple[str, str], int] = {}
        out = []
        for caller, number, name, by in self.asks:
            counter = caller.split("/")[0], name
            totals[counter] = totals.get(counter, 0) + by
            out.append(b'{"from":"%b","id":%d,"ok":%d}' % (caller.encode(), number, totals[counter]))
        return out

    def line(self, place: int, told: int) -> bytes:
        """A line that says what its caller has seen, of so many that are told. It is perhaps one more than there were."""
        if place == len(self.asks):
            self.ask()
        caller, number, name, by = self.asks[place]
        seen = next((one[1] for one in reversed(self.asks[:told]) if one[0] == caller), None)
        said = {"op": "call", "from": caller, "id": number, "grain": f"counter/{caller.split('/')[0]}:{name}", "method": "add",
                "args": {"by": by}, "once": True, **({} if seen is None else {"seen": seen})}
        return json.dumps(said).encode() + b"\n"

    def difference(self) -> Optional[str]:
        for place, (one, other) in enumerate(zip(self.told, self.wanted())):
            if one != other:
                return f"line {self.line(place, 0)!r} is told {one!r}, and not {other!r}"
        return None if len(self.told) == len(self.asks) else f"{len(self.told)} of {len(self.asks)} lines are told"


# ---- a silo in memory that ends at a call

def lived(client: Asking, files: dict) -> bool:
    """A life from these files, which are then those that it left. Whether it came to its end."""
    calls = Calls(client.random.choice([0, *range(1, 40)]))
    told, before = Told(calls), len(client.told)

    def pieces() -> Iterator[bytes]:
        place = before
        while place < len(client.asks):
            end, count = min(place + client.random.randrange(1, 4), len(client.asks)), before + b"".join(told).count(b"\n")
            yield b"".join(client.line(at, count) for at in range(place, end))
            place = end

    try:
        status = run_program(client.words, pieces(), written=told, folder_at=lambda *_given: CutMemory(files, calls),
                             most_log=client.random.choice(LOGS)).status
    except Cut:
        status = None
    # of a line that came by half nothing is known
    client.told += b"".join(told).split(b"\n")[:-1]
    return status == 0


def cut_difference(random: Random) -> Optional[str]:
    """What isn't as if each request acted once."""
    client = Asking(random, random.choice([5, 20, 40]))
    files: dict = {}
    for _ in range(MOST_LIVES):
        if lived(client, files):
            return client.difference()
    return "no end comes"


# ---- a process that is killed under load

def write_lines(client: Asking, process: subprocess.Popen, last: Optional[int]) -> None:
    """Writes lines behind those that are told, up to the last one, if there is one, and some ahead of what is told."""
    place = len(client.told)
    try:
        while place != last:
            if place - len(client.told) < AHEAD:
                write_whole(process.stdin.fileno(), client.line(place, len(client.told)))
                place += 1
            elif process.poll() is not None:
                break
            else:
                time.sleep(0.001)
    except BrokenPipeError:
        pass
    process.stdin.close()


def killed_after(client: Asking, command: list[str], folder: str, count: Optional[int]) -> int:
    """A life in a folder that is killed once so many lines were told, or that ends when all are. How it ended.

    What it told beyond these is lost, so the next life is asked that again.
    """
    process = subprocess.Popen([*command, *WORDS], stdin=subprocess.PIPE, stdout=subprocess.PIPE, stderr=subprocess.DEVNULL, cwd=folder)
    writer = threading.Thread(target=write_lines, args=(client, process, len(client.asks) if count is None else None))
    writer.start()
    end = None if count is None else len(client.told) + count
    for line in process.stdout:
        client.told.append(line[:-1])
        if len(client.told) == end:
            process.kill()
            break
    process.stdout.close()
    writer.join()
    return process.wait(SECONDS)


def kill_difference(random: Random, command: list[str], kills: int) -> Optional[str]:
    """What isn't as if each request acted once, of a process that is killed so often, and then asked to its end."""
    client = Asking(random, 0)
    with tempfile.TemporaryDirectory() as folder:
        for _ in range(kills):
            status = killed_after(client, command, folder, random.randrange(1, 400))
            if status != KILLED:
                return f"a process ends with status {status} before it is killed"
        status = killed_after(client, command, folder, None)
    return client.difference() if status == 0 else f"the last process ends with status {status}"
